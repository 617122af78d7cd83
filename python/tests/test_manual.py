"""The manual page and what shells complete by: each option stands in each."""

import subprocess
import unittest

from typecore_py import manual, options


class Pages(unittest.TestCase):
    def test_each_option_stands_in_each_page(self) -> None:
        parser = options.parser()
        for name, page in manual.PAGES.items():
            text = page(parser).replace("\\-", "-")
            for action in manual.actions(parser):
                for word in action.option_strings:
                    self.assertIn(word, text, name)

    def test_bash_completes_an_option(self) -> None:
        asked = "COMP_WORDS=(typecore-py --ag); COMP_CWORD=1; _typecore_py; echo ${COMPREPLY[@]}"
        ran = subprocess.run(["bash", "-c", manual.bash(options.parser()) + asked], capture_output=True, text=True)
        self.assertEqual(ran.stdout, "--against-python\n")


if __name__ == "__main__":
    unittest.main()
