"""The service around a Prefork master: its sockets, its words, its workers."""

VERSION = "0.2.0"
