"""Errors of system calls, injected by strace into the processes of a service."""
