"""Finds the program that stands for the sources, runs it with the streams and signals of its caller, and says what a status means."""
