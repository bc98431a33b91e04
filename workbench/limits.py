"""The limits of the program: tests/test_limits.py compares them with its --help and with what it refuses."""
VARIABLES = 16  # that a file declares
MACROS = 256
PARAMETERS = 8  # of a macro
OUTPUTS = 8  # variables after the inputs, for a controller
SLOTS = 32  # declared variables, different prior and next propositions, and quantifiers one inside another
NUMBER = 9_999
NAME = 24  # characters
NESTED = 500  # tokens ( ! <> [] ex all => * - + one inside another, in one definition or in the goal
FILE_BYTES = 262_144
TEXT_BYTES = 134_217_728  # of the text of an observer or of an automaton
GOAL_NODES = 65_536  # of the goal with each macro in the place of its call
GOAL_DEPTH = 512
STATES, DEFAULT_STATES = 32_000, 30_000  # of a step
NODES = 1_000_000  # of a step; the default, too
TUPLES, DEFAULT_TUPLES = 100_000_000, 5_000_000  # of states of several files
JOINT_NAMES = 32  # of several files together
TRACE_LINES = 1_000_000
