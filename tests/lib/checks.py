"""The assertions of `unittest` for what is no test itself: servers, clients and people who draw."""

import unittest

check = unittest.TestCase()
