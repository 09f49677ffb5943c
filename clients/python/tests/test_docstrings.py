"""The examples in docstrings are as they say."""
import doctest
import importlib
import pkgutil
import unittest

import nukwashe


class Docstrings(unittest.TestCase):
    def test_examples(self):
        tried = 0
        for module in pkgutil.walk_packages(nukwashe.__path__, "nukwashe."):
            if not module.name.endswith("__main__"):
                result = doctest.testmod(importlib.import_module(module.name))
                self.assertEqual(result.failed, 0, module.name)
                tried += result.attempted
        self.assertGreater(tried, 8)


if __name__ == "__main__":
    unittest.main()
