"""`python3 -m nukwashe.chart TRANSCRIPT` is `nukwashe-chart TRANSCRIPT`."""
from .command import main

main()
