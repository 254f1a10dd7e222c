"""Thousands of hostile connections while others draw."""
