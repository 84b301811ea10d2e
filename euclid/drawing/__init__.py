"""Draws a theorem and its proof from the text alone: a picture, which claims nothing."""
