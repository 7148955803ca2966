"""Serving a collection on this machine: a page in the browser, a JSON interface, and answers to tools/ask without loading anew."""
