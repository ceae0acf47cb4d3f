"""The command line as people expect it: what the launcher does besides handing its words and its input on to a program."""
