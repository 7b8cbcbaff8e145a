"""Tests of pages in a browser: Chromium without a window, told what to do over its debugging protocol."""
