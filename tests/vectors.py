"""Holds the models to the documents, then writes what the program `vectors` must
print: `python3 tests/vectors.py > crates/vectors/stdout`.
"""

import decks
import model

if __name__ == "__main__":
    model.hold()
    decks.hold_to_the_document()
    model.print_vectors()
    decks.print_vectors()
