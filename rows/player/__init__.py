"""Plays rows at a stage."""
