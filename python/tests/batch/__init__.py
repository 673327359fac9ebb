"""Tests of fzbatch."""
