"""What the program answers by the pages of docs/, for the script outside.py.

FORMATS.md says which datagrams spell a PDU, and which files are recordings and certificates; READING.md when a
certificate explains a recording, what became of its orders, what each entry says and what goes with it, how many there
are of each kind, what contradicts what, and how each answer is written; SCRIPTS.md which texts are scripts, and why the
others are none, and, with NETWORK.md, what their worlds record and what a station on a network does; and what `plan`
says of a source. Which entries a capture gives, and which packets a recording, imports.py and exports.py say alone so
far. Nothing here looks at the program.
"""
from .captures import *
from .clashes import *
from .conflicts import *
from .counts import *
from .datagrams import *
from .exports import *
from .files import *
from .histories import *
from .imports import *
from .joins import *
from .logs import *
from .packets import *
from .plan import *
from .prose import *
from .reasons import *
from .reviews import *
from .scripts import *
from .stations import *
from .worlds import *
