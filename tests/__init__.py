"""Tests of the built program, of the tools and of the documents."""
