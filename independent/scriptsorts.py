"""The scripts by kind and sort."""

import drawn_scripts
import form_scripts
import page_scripts
import value_scripts

# the kinds that have all sorts, in the order of the stored scripts
LETTERS = drawn_scripts.LETTERS


def all_scripts():
    """The scripts by kind and sort, as bytes."""
    sorts = {(letter, name): scripts for letter in LETTERS
             for module in (drawn_scripts, value_scripts, form_scripts)
             for name, scripts in module.sorts_of(letter).items()}
    sorts.update({("p", name): scripts() for name, scripts in page_scripts.SORTS.items()})
    sorts.update({name: scripts() for name, scripts in form_scripts.SORTS.items()})
    return {name: [text.encode("latin-1") for text in scripts] for name, scripts in sorts.items()}
