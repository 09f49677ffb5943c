"""A session for a desktop: one node that stays, and short programs that attach to it.

A closed connection between two nodes never opens again. So a program that only copies or pastes
cannot be a node of its own each time. `nukwashe-session WORLD` keeps one node. `nukwashe-copy`,
`nukwashe-paste`, `nukwashe-post` and `nukwashe-look` speak to it over a socket that only its user
can open.
"""
