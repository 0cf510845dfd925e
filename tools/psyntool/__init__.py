"""The tool `psyn`, which runs the program psyn on files: it joins the files to one input of the program, explains
faults, and draws games and circuits. This package is installed for users, unlike the package `upkeep`.

  main, words, command, table    parsing a command line; what a command is; the table of all commands
  commands                       the commands, one file each
  running, limits, reporting     running a command within its limits, and its answer as JSON
  asking, program, signals       running the program, and ending it together with the tool
  files, kinds, console, outputs reading and writing files and standard streams, with the errors of doing so
  unmentioned                    inputs of a circuit that the automaton does not mention
  texts                          games, certificates, automata, circuits, stimuli, solutions: types and parsers
  explaining, faults             explanations of faults, from docs/FAULTS.md
  letters, remarks               letters of a stimulus by names; remarks on a controller that may not be the wanted one
  parts, plays                   specifications in parts; plays against a circuit
  tlsf                           specifications in TLSF's full form, written out in its basic form
  pictures, families             pictures in Graphviz DOT; named families of games
  pages                          a page for a browser, in one file, on which a user plays against a circuit

A module that few runs need is imported inside the function that needs it, so that the tool starts quickly.
"""
