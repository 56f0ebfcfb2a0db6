"""Nalvegop for projects: preprocesses a project's files, has `saturn_check` check them, and shows what it found."""

VERSION = "0.1"
