"""Sessions and their readable descriptions; tools/session.py is the command."""
