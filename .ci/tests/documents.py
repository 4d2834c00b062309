#!/usr/bin/env python3
"""Tests of .ci/docs: it runs the commands in a document, and reports where their output differs from the document."""
from __future__ import annotations

import os
import subprocess
import tempfile
import unittest

TOP = os.path.dirname(os.path.dirname(os.path.dirname(os.path.abspath(__file__))))

HONEST = """# Commands

    $ printf 'a\\nb\\nc\\n' >letters
    $ cat letters
    a
    ...
    c

Text between.

    $ cat >more <<'E'
    num_ranks 1
    rank 0 { calc 100 }
    E
    $ ./goal knots more; \\
      wc -l <letters
    ranks 1 ops 1 stuck 0 unread 0 finish 100
    3

More text.

    this block has no command

```
$ tools/timeline examples/exchange -o exchange.svg
```

![a picture](exchange.svg)
"""


class Documents(unittest.TestCase):
    def checked(self, text: str, *words: str) -> tuple[bool, str]:
        """Whether a document passes .ci/docs, and the output of .ci/docs."""
        with tempfile.TemporaryDirectory() as folder:
            path = os.path.join(folder, "text.md")
            with open(path, "w", encoding="utf-8") as file:
                file.write(text)
            done = subprocess.run([os.path.join(TOP, ".ci", "docs"), *words, path], capture_output=True, text=True, check=False)
        return done.returncode == 0, done.stdout

    def test_a_document_that_shows_the_output_passes(self) -> None:
        passes, said = self.checked(HONEST, "--draw")
        self.assertTrue(passes, said)
        self.assertIn("5 commands, all as shown", said)

    def test_a_picture_must_be_the_one_that_is_drawn(self) -> None:
        passes, said = self.checked(HONEST)
        self.assertFalse(passes)
        self.assertIn("the picture exchange.svg is not the one that its commands draw", said)

    def test_output_that_differs_is_reported(self) -> None:
        for old, new, line in (("finish 100", "finish 101", 15), ("    ...\n", "", 4), ("    c\n", "    d\n", 4), ("    3\n", "", 15)):
            with self.subTest(new):
                passes, said = self.checked(HONEST.replace(old, new), "--draw")
                self.assertFalse(passes)
                self.assertIn(f"text.md:{line}: $ ", said)


if __name__ == "__main__":
    unittest.main(verbosity=0)
