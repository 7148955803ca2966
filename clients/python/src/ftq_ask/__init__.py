"""Asking a folder of XML: files are read as they are, and answers are shown with their files and lines."""
