"""Pictures of games, automata and circuits, as Graphviz DOT."""
