"""How the picture looks: its colours, and where things are."""

# name and colour of each brake state
STATES = (
    ("charged", "#cfe6cf"),
    ("applying service", "#f7d27c"),
    ("holding service", "#e79a3c"),
    ("applying emergency", "#e2574c"),
    ("holding emergency", "#98201b"),
    ("charging", "#8fb8e6"),
)
HEAD, STOP, TARGET, SPEED, PENALTY, EMERGENCY, REFUSED = (
    "#1f4e9c", "#c25b12", "#5b6b60", "#1f4e9c", "#c4161c", "#0c7c77", "#7a1fa2")
# by turns, so that blocks alike are told apart
BLOCKS = ("#6d7f99", "#94a5bd")
INK, FAINT, PAPER = "#222222", "#e3e3e3", "#ffffff"

# places in the picture, in pixels
WIDTH, HEIGHT = 980, 690
LEFT, RIGHT = 92, 790
KEY, WHERE, FAST, BAND, LOST, CLOCK, STATE_KEY = 52, (98, 366), (400, 530), (556, 578), 596, 612, 672
LABEL_GAP = 17
# beside the speed: the train from rear to head, and the heights of nothing and of the heaviest block
TRAIN, TONS = (814, 966), (510, 442)
# above the locations: the penalty's label, and emergency's above it
CALLS = (85, 71)
