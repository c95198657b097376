"""What the definitions are compared with by definitions.py.

    edge_texts      texts at the edges of the rules
    terms           texts and the answers to expect of them, as a module of the logic
"""
