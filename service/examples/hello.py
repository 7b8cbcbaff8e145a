"""A WSGI application for a first try."""
import os

from flask import Flask

app = Flask(__name__)


@app.get("/")
def page() -> str:
    return f"hello from process {os.getpid()}\n"
