"""The published data of the problems, as they stand in their sources. README.md names these."""

# Generalised assignment, c515-1: hours of each of 15 jobs by each of 5 agents, profits, and hours that agents have.
GAP_HOURS = [[8, 15, 14, 23, 8, 16, 8, 25, 9, 17, 25, 15, 10, 8, 24], [15, 7, 23, 22, 11, 11, 12, 10, 17, 16, 7, 16, 10, 18, 22],
             [21, 20, 6, 22, 24, 10, 24, 9, 21, 14, 11, 14, 11, 19, 16], [20, 11, 8, 14, 9, 5, 6, 19, 19, 7, 6, 6, 13, 9, 18],
             [8, 13, 13, 13, 10, 20, 25, 16, 16, 17, 10, 10, 5, 12, 23]]
GAP_PROFITS = [[17, 21, 22, 18, 24, 15, 20, 18, 19, 18, 16, 22, 24, 24, 16], [23, 16, 21, 16, 17, 16, 19, 25, 18, 21, 17, 15, 25, 17, 24],
               [16, 20, 16, 25, 24, 16, 17, 19, 19, 18, 20, 16, 17, 21, 24], [19, 19, 22, 22, 20, 16, 19, 17, 21, 19, 25, 23, 25, 25, 25],
               [18, 19, 15, 15, 21, 25, 16, 16, 23, 15, 22, 17, 19, 22, 24]]
GAP_ROOM = [36, 34, 38, 27, 33]

# Travelling salesman, ulysses16: latitude and longitude of each port, in degrees and minutes.
ULYSSES = [(38.24, 20.42), (39.57, 26.15), (40.56, 25.32), (36.26, 23.12), (33.48, 10.54), (37.56, 12.19), (38.42, 13.11), (37.52, 20.44),
           (41.23, 9.10), (41.17, 13.05), (36.08, -5.21), (38.47, 15.13), (38.15, 15.35), (37.51, 15.17), (35.49, 14.32), (39.36, 19.56)]

# Vehicle routing, P-n16-k8: the depot and 15 customers with their places and demands; what a vehicle holds.
ROUTING = [((30, 40), 0), ((37, 52), 19), ((49, 49), 30), ((52, 64), 16), ((31, 62), 23), ((52, 33), 11), ((42, 41), 31), ((52, 41), 15),
           ((57, 58), 28), ((62, 42), 8), ((42, 57), 8), ((27, 68), 7), ((43, 67), 14), ((58, 48), 6), ((58, 27), 19), ((37, 69), 11)]
ROUTING_HOLDS, ROUTING_VEHICLES = 35, 8

# Cutting stock: widths of a paper machine's rolls in millimetres with the rolls that are ordered, and the width of the machine.
ROLLS = {1380: 22, 1520: 25, 1560: 12, 1710: 14, 1820: 18, 1880: 18, 1930: 20, 2000: 10, 2050: 12, 2100: 14, 2140: 16, 2150: 18, 2200: 20}
MACHINE = 5600

# Knapsack, P08: weights and profits of 24 things, and what the sack holds.
SACK_WEIGHTS = [382745, 799601, 909247, 729069, 467902, 44328, 34610, 698150, 823460, 903959, 853665, 551830, 610856, 670702, 488960, 951111,
                323046, 446298, 931161, 31385, 496951, 264724, 224916, 169684]
SACK_PROFITS = [825594, 1677009, 1676628, 1523970, 943972, 97426, 69666, 1296457, 1679693, 1902996, 1844992, 1049289, 1252836, 1319836, 953277,
                2067538, 675367, 853655, 1826027, 65731, 901489, 577243, 466257, 369261]
SACK_HOLDS = 6404180

# Car sequencing: for each option how many of so many cars in a row can get it; the cars of each class, and the options of the class.
CAR_OPTIONS = [(1, 2), (2, 3), (1, 3), (2, 5), (1, 5)]
CAR_CLASSES = [(1, (1, 0, 1, 1, 0)), (1, (0, 0, 0, 1, 0)), (2, (0, 1, 0, 0, 1)), (2, (0, 1, 0, 1, 0)), (2, (1, 0, 1, 0, 0)), (2, (1, 1, 0, 0, 0))]

# A nonogram: runs of filled cells in each row and in each column.
NONOGRAM_ROWS = [(3,), (2, 1), (3, 2), (2, 2), (6,), (1, 5), (6,), (1,), (2,)]
NONOGRAM_COLUMNS = [(1, 2), (3, 1), (1, 5), (7, 1), (5,), (3,), (4,), (3,)]
