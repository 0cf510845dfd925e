"""Specifications in temporal logic: TLSF's full form, written out in its basic form, and what is told of sentences.

  tokens, syntax           tokens of a text; its expressions and declarations as trees
  expressions, reading     the parsers of expressions, and of whole texts
  values, formulas         what expressions stand for; formulas of the basic form, with their sizes
  names                    a check of all names
  evaluating, definitions  the values of expressions; parameters, definitions, signals
  sentences                what `within`, `unless`, `stable` and the like stand for
  expanding                the basic form of a text
  spoken                   sentences of a command line, in the syntax of other tools
  obligations              what is left of a formula behind a letter; its truth on lassos
  keeping                  which sentences a lasso violates
  cores, sanity            which sentences conflict or suffice; what looks like a mistake
  plays, playing           plays against a circuit, by sentences; those that a user types
"""
