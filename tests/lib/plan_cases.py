"""Plans and certificates that are worked by hand, with what the program is to answer; for plans.py."""
import json

PLAN = '''\
[[node]]
name = "CT1"
address = "127.0.0.1:11101"
[[node]]
name = "GATE"
address = "127.0.0.1:11102"
[[node.accept]]
from = ["CT1"]
class = "1.2.840.10008.5.1.4.1.1.2"
syntax = ["1.2.840.10008.1.2.1"]
[[node.rule]]
from = "CT1"
to = ["ARCH"]
[[node]]
name = "ARCH"
address = "127.0.0.1:11103"
[[node.accept]]
from = "*"
class = "1.2.840.10008.5.1.4.1.1.2"
syntax = ["1.2.840.10008.1.2.1"]
[[node.rule]]
keep = true
[[flow]]
at = "CT1"
to = "GATE"
class = ["1.2.840.10008.5.1.4.1.1.2"]
syntax = ["1.2.840.10008.1.2.1"]
modality = ["CT"]
station = ["S1"]
'''
"""Three nodes: what enters at CT1 goes to GATE, and from there to ARCH, which keeps it."""

LOOP = '''\
[[node]]
name = "CT1"
address = "127.0.0.1:11101"
[[node]]
name = "GATE"
address = "127.0.0.1:11102"
GATE_RULES
[[node.accept]]
from = "*"
class = "1.2.840.10008.5.1.4.1.1.2"
syntax = ["1.2.840.10008.1.2.1"]
[[node]]
name = "HUB"
address = "127.0.0.1:11103"
HUB_RULES
[[node.accept]]
from = "*"
class = "1.2.840.10008.5.1.4.1.1.2"
syntax = ["1.2.840.10008.1.2.1"]
[[flow]]
at = "CT1"
to = "GATE"
class = ["1.2.840.10008.5.1.4.1.1.2"]
syntax = ["1.2.840.10008.1.2.1"]
modality = ["CT"]
station = ["S1"]
'''
"""Two nodes that send to each other, with the rules of GATE and HUB to be filled in."""

# a text of the plan of three nodes, what stands in its place, and the fault that this makes
TEXTS = [
    # each fault alone
    ('CT1', 'CT1', None),
    ('[[flow]]', '[[flow]', 'L1 NotToml'),
    ('keep = true', 'colour = 1', 'L2 Field'),
    ('[[flow]]', '[[flow]]\ncolour = 1', 'L2 Field'),
    ('class = [', 'class_ = [', 'L2 Field'),
    ('"1.2.840.10008.1.2.1"]\n[[node.rule]]\nkeep', '"1.2.840.10008.1.2.2"]\n[[node.rule]]\nkeep', 'L7 Syntax'),
    ('"1.2.840.10008.1.2.1"]\nmodality', '"1.2.840.10008.1.2.2"]\nmodality', 'L7 Syntax'),
    ('to = ["ARCH"]', 'to = ["ARCH "]', 'L3 Name'),
    ('name = "ARCH"', 'name = "GATE"', 'L3 Name'),
    ('address = "127.0.0.1:11103"', 'address = "127.0.0.1:11103"\nmax_pdu = 1', 'L6 Limit'),
    # routes go to other nodes
    ('to = ["ARCH"]', 'to = ["NONE"]', 'L4 UnknownNode'),
    ('from = ["CT1"]', 'from = ["NONE"]', 'L4 UnknownNode'),
    ('from = "CT1"', 'from = "NONE"', 'L4 UnknownNode'),
    ('at = "CT1"', 'at = "NONE"', 'L4 UnknownNode'),
    ('to = "GATE"', 'to = "NONE"', 'L4 UnknownNode'),
    ('to = ["ARCH"]', 'to = ["GATE"]', 'L5 SelfRoute'),
    ('to = "GATE"', 'to = "CT1"', 'L5 SelfRoute'),
    # two faults that are neighbours in the order of the tests, the later one first in the text
    ('[[node.rule]]\nkeep = true\n[[flow]]', '[[node.rule]]\nkeep = 1\n[[flow]', 'L1 NotToml'),
    ('["1.2.840.10008.1.2.1"]\nmodality = ["CT"]', '["1.2"]\nmodality = 1', 'L2 Field'),
    ('name = "CT1"\n', 'name = ""\n[[node.accept]]\nfrom = []\nclass = "1"\nsyntax = ["1"]\n[[node]]\nname = "CT1"\n', 'L2 Field'),
    ('[[node]]\nname = "CT1"',
     '[[node]]\nname = ""\naddress = "h:1"\n[[node.accept]]\nfrom = []\nclass = "1"\nsyntax = ["1"]\n[[node]]\nname = "CT1"',
     'L7 Syntax'),
    ('address = "127.0.0.1:11101"', 'address = "h:1"\nmax_pdu = 1\n[[node.rule]]\nfrom = ""', 'L3 Name'),
    ('address = "127.0.0.1:11101"', 'address = "h:1"\n[[node.rule]]\nfrom = "NONE"\n[[node]]\nname = "X"\naddress = "h:1"\nmax_pdu = 1', 'L6 Limit'),
    ('to = ["ARCH"]', 'to = ["GATE", "NONE"]', 'L4 UnknownNode'),
    # names and rules at their limits
    ('ARCH', 'A', None),
    ('ARCH', '0123456789ABCDEF', None),
    ('ARCH', 'A B', None),
    ('ARCH', '0123456789ABCDEFG', 'L3 Name'),
    ('ARCH', '', 'L3 Name'),
    ('ARCH', ' A', 'L3 Name'),
    ('ARCH', 'A ', 'L3 Name'),
    ('ARCH', 'A\\\\B', 'L3 Name'),
    ('ARCH', '*', 'L3 Name'),
    ('ARCH', '-', 'L3 Name'),
    ('ARCH', 'A\\u007F', 'L3 Name'),
    ('ARCH', 'A\\u00E4', 'L3 Name'),
    ('keep = true', 'class = "*"', None),
    ('keep = true', 'class = "0123456789012345678901234567890123456789012345678901234567890123"', None),
    ('keep = true', 'class = "01234567890123456789012345678901234567890123456789012345678901234"', 'L2 Field'),
    ('keep = true', 'class = ""', 'L2 Field'),
    ('keep = true', 'class = "1.a"', 'L2 Field'),
    ('keep = true', 'modality = "*"\nstation = ""', None),
    ('keep = true', 'modality = "A B"', None),
    ('keep = true', 'modality = "A*"', 'L2 Field'),
    ('keep = true', 'modality = " "', 'L2 Field'),
    ('keep = true', 'modality = "A "', 'L2 Field'),
    ('keep = true', 'modality = "A\\u007F"', 'L2 Field'),
    ('keep = true', 'modality = []', 'L2 Field'),
    ('keep = true', 'except = ["S1"]', 'L2 Field'),
    ('keep = true', 'except = []', 'L2 Field'),
    ('keep = true', 'from = ["CT1"]', 'L2 Field'),
    ('keep = true', 'to = []', None),
    ('keep = true', 'to = "CT1"', 'L2 Field'),
    ('keep = true', 'to = ["CT1", "CT1"]', None),
    ('keep = true', 'to = ["*"]', 'L3 Name'),
    ('keep = true', 'to = [1]', 'L2 Field'),
    ('keep = true', 'keep = 1', 'L2 Field'),
    # flows at their limits
    ('station = ["S1"]', 'station = "*"', None),
    ('station = ["S1"]', 'station = []', None),
    ('station = ["S1"]', 'station = ["", ""]', None),
    ('station = ["S1"]', 'station = "S1"', 'L2 Field'),
    ('station = ["S1"]', 'station = ["*"]', 'L2 Field'),
    ('station = ["S1"]', '', 'L2 Field'),
    ('S1', '0123456789012345678901234567890123456789012345678901234567890123', None),
    ('S1', '01234567890123456789012345678901234567890123456789012345678901234', 'L2 Field'),
    ('class = ["1.2.840.10008.5.1.4.1.1.2"]', 'class = []', 'L2 Field'),
    ('class = ["1.2.840.10008.5.1.4.1.1.2"]', 'class = ["1", "1"]', None),
    # prefixes stand in format 1 nowhere
    ('station = ["S1"]', 'station = ["S*"]', 'L2 Field'),
    ('keep = true', 'station = "S*"', 'L2 Field'),
    ('keep = true', 'modality = "S*"', 'L2 Field'),
    # lengths of PDUs at their limits
    (':11103"', ':11103"\nmax_pdu = 0', None),
    (':11103"', ':11103"\nmax_pdu = 1023', 'L6 Limit'),
    (':11103"', ':11103"\nmax_pdu = 1024', None),
    (':11103"', ':11103"\nmax_pdu = 1048576', None),
    (':11103"', ':11103"\nmax_pdu = 1048577', 'L6 Limit'),
    (':11103"', ':11103"\nmax_pdu = -1', 'L6 Limit'),
    (':11103"', ':11103"\nmax_pdu = 4294968320', 'L6 Limit'),
    (':11103"', ':11103"\nmax_pdu = 9223372036854775807', 'L6 Limit'),
    (':11103"', ':11103"\nmax_pdu = 9223372036854775808', 'L1 NotToml'),
    (':11103"', ':11103"\nmax_pdu = 1024.0', 'L2 Field'),
    # addresses have a port
    ('127.0.0.1:11103', '[::1]:65535', None),
    ('127.0.0.1:11103', 'h:00001', None),
    ('127.0.0.1:11103', 'h:65536', 'L2 Field'),
    ('127.0.0.1:11103', 'h:000001', 'L2 Field'),
    ('127.0.0.1:11103', 'h:', 'L2 Field'),
    ('127.0.0.1:11103', ':1', 'L2 Field'),
    ('127.0.0.1:11103', 'h', 'L2 Field'),
    ('127.0.0.1:11103', 'h:1a', 'L2 Field'),
    ('127.0.0.1:11103', 'h h:1', 'L2 Field'),
    # the format is 1, 2 or 3
    ('[[node]]\nname = "CT1"', 'format = 1\n[[node]]\nname = "CT1"', None),
    ('[[node]]\nname = "CT1"', 'format = 2\n[[node]]\nname = "CT1"', None),
    ('[[node]]\nname = "CT1"', 'format = 3\n[[node]]\nname = "CT1"', None),
    ('[[node]]\nname = "CT1"', 'format = 4\n[[node]]\nname = "CT1"', 'L2 Field'),
    ('[[node]]\nname = "CT1"', 'format = 0\n[[node]]\nname = "CT1"', 'L2 Field'),
    ('[[node]]\nname = "CT1"', 'format = "1"\n[[node]]\nname = "CT1"', 'L2 Field'),
    ('[[node]]\nname = "CT1"', '[other]\n[[node]]\nname = "CT1"', 'L2 Field'),
    ('name = "CT1"', '', 'L2 Field'),
    # syntaxes and callers are lists
    ('syntax = ["1.2.840.10008.1.2.1"]', 'syntax = ["1.2.840.10008.1.2", "1.2.840.10008.1.2.1"]', None),
    ('syntax = ["1.2.840.10008.1.2.1"]', 'syntax = []', 'L2 Field'),
    ('syntax = ["1.2.840.10008.1.2.1"]\n[[node.rule]]', 'syntax = ["1", "1"]\n[[node.rule]]', 'L2 Field'),
    ('syntax = ["1.2.840.10008.1.2.1"]\nmodality', 'syntax = ["1", "1"]\nmodality', 'L7 Syntax'),
    ('syntax = ["1.2.840.10008.1.2.1"]', 'syntax = "1.2.840.10008.1.2.1"', 'L2 Field'),
    ('from = "*"', 'from = "CT1"', 'L2 Field'),
    ('from = "*"', 'from = []', None),
    ('from = "*"', 'from = ["*"]', 'L3 Name'),
]

# what stands in the place of a text of the plan of three nodes in format 2, and the fault that this makes
TEXTS_OF_FORMAT_2 = [
    ('station = ["S1"]', 'station = ["S*"]', None),
    ('station = ["S1"]', 'station = ["S*", "S1", "S1*", "S*"]', None),
    ('station = ["S1"]', 'station = ["*"]', 'L2 Field'),
    ('station = ["S1"]', 'station = ["S *"]', 'L2 Field'),
    ('station = ["S1"]', 'station = [" S*"]', 'L2 Field'),
    ('station = ["S1"]', 'station = ["S**"]', 'L2 Field'),
    ('station = ["S1"]', 'station = ["S*1"]', 'L2 Field'),
    ('station = ["S1"]', 'station = "S*"', 'L2 Field'),
    ('S1', '0123456789012345678901234567890123456789012345678901234567890123*', None),
    ('S1', '01234567890123456789012345678901234567890123456789012345678901234*', 'L2 Field'),
    ('modality = ["CT"]', 'modality = ["CT*"]', 'L2 Field'),
    ('keep = true', 'station = "S*"', None),
    ('keep = true', 'station = "*"', None),
    ('keep = true', 'station = "**"', 'L2 Field'),
    ('keep = true', 'station = "S *"', 'L2 Field'),
    ('keep = true', 'modality = "S*"', 'L2 Field'),
    ('from = "CT1"', 'from = "CT*"', 'L4 UnknownNode'),
    ('class = ["1.2.840.10008.5.1.4.1.1.2"]', 'class = ["1.2*"]', 'L2 Field'),
    ('keep = true', 'station = "S*"\nexcept = ["S1"]', 'L2 Field'),
    ('keep = true', 'keep = true\nexcept = []', 'L2 Field'),
]


def many(word, count):
    """A list with this word so many times."""
    return '[' + ', '.join([f'"{word}"'] * count) + ']'


CT, CT_NAME = '1.2.840.10008.5.1.4.1.1.2', 'CT Image Storage'
FLOW_CLASS = f'class = ["{CT}"]'

# what stands in the place of a text of the plan of three nodes in format 3, and the fault that this makes
TEXTS_OF_FORMAT_3 = [
    # classes and transfer syntaxes by name
    (CT, CT_NAME, None),
    (CT, 'CTImageStorage', None),
    (CT, 'ctimagestorage', 'L4 UnknownName'),
    (CT, 'CT Image Storage ', 'L4 UnknownName'),
    (CT, '', 'L4 UnknownName'),
    (CT, '*', 'L4 UnknownName'),
    (CT, 'ExplicitVRLittleEndian', 'L4 UnknownName'),
    ('1.2.840.10008.1.2.1', 'Explicit VR Little Endian', None),
    ('1.2.840.10008.1.2.1', 'ExplicitVRLittleEndian', None),
    ('1.2.840.10008.1.2.1', 'JPEGBaseline8Bit', 'L7 Syntax'),
    ('1.2.840.10008.1.2.1', CT_NAME, 'L7 Syntax'),
    ('syntax = ["1.2.840.10008.1.2.1"]\n[[node.rule]]', 'syntax = ["1.2.840.10008.1.2.1", "ExplicitVRLittleEndian"]\n[[node.rule]]', 'L2 Field'),
    # lists of classes
    (FLOW_CLASS, f'class = "{CT}"', None),
    (FLOW_CLASS, f'class = ["{CT}", "{CT}", "CTImageStorage"]', None),
    (FLOW_CLASS, 'class = []', 'L2 Field'),
    (FLOW_CLASS, 'class = [1]', 'L2 Field'),
    (f'class = "{CT}"\n', f'class = ["{CT}", "1.2"]\n', None),
    (f'class = "{CT}"\n', 'class = []\n', 'L2 Field'),
    ('keep = true', 'keep = true\nclass = ["1.2", "CT Image Storage"]', None),
    ('keep = true', 'keep = true\nclass = "CTImage"', 'L4 UnknownName'),
    # sets
    (FLOW_CLASS, 'class = ["@ct"]', None),
    (FLOW_CLASS, 'class = "@ct"', None),
    (FLOW_CLASS, 'class = "@all-storage"', None),
    (FLOW_CLASS, 'class = "@CT"', 'L4 UnknownName'),
    (FLOW_CLASS, 'class = "@"', 'L4 UnknownName'),
    (FLOW_CLASS, 'class = "@@ct"', 'L4 UnknownName'),
    (FLOW_CLASS, f'class = "@ours"\n[set]\nours = ["{CT}"]\n[[flow]]\nat = "CT1"\nto = "GATE"\n{FLOW_CLASS}', 'L2 Field'),
    # nodes
    ('at = "CT1"', 'at = ["CT1"]', None),
    ('at = "CT1"', 'at = ["CT1", "ARCH"]', None),
    ('at = "CT1"', 'at = []', 'L2 Field'),
    ('at = "CT1"', 'at = "@scanners"', 'L4 UnknownName'),
    ('at = "CT1"', 'at = "CT9"', 'L4 UnknownNode'),
    ('at = "CT1"', 'at = ["CT1", "GATE"]', 'L5 SelfRoute'),
    ('from = "*"', 'from = ["CT1", "CT1"]', None),
    ('from = "*"', 'from = ["@scanners"]', 'L4 UnknownName'),
    ('from = "*"', 'from = "CT1"', 'L2 Field'),
    ('keep = true', 'keep = true\nfrom = ["CT1", "GATE"]', None),
    ('keep = true', 'keep = true\nfrom = ["*"]', None),
    ('keep = true', 'keep = true\nfrom = []', 'L2 Field'),
    ('keep = true', 'to = "CT1"', 'L2 Field'),
    ('keep = true', 'to = ["@archives"]', 'L4 UnknownName'),
    ('name = "CT1"', 'name = "@CT1"', 'L2 Field'),
    ('name = "CT1"', 'name = "CT\\n1"', 'L2 Field'),
    ('name = "CT1"', 'name = "CT\\t1"', 'L3 Name'),
    # what a text stands for: 1,024 in one list, 128 bytes in a word
    ('at = "CT1"', f'at = ["CT1", "{"N" * 128}"]', 'L3 Name'),
    ('at = "CT1"', f'at = ["CT1", "{"N" * 129}"]', 'L6 Limit'),
    ('1.2.840.10008.1.2.1', 'J' * 129, 'L6 Limit'),
    ('keep = true', f'keep = true\nto = {many("CT1", 1024)}', None),
    ('keep = true', f'keep = true\nto = {many("CT1", 1025)}', 'L6 Limit'),
    ('station = ["S1"]', 'station = ' + many('S1", "S*', 1024), None),
    ('station = ["S1"]', f'station = {many("S1", 1025)}', 'L6 Limit'),
    ('keep = true', f'keep = true\nclass = {many("@us", 300)}', 'L6 Limit'),
    ('at = "CT1"', f'at = ["@scanners", "{"N" * 129}"]', 'L6 Limit'),
    ('at = "CT1"', f'at = ["{"N" * 129}"]\ncolour = 1', 'L2 Field'),
    # prefixes of stations, as in format 2, and of modalities
    ('station = ["S1"]', 'station = ["S1", "S*"]', None),
    ('modality = ["CT"]', 'modality = ["CT*", "MR"]', None),
    ('modality = ["CT"]', 'modality = ["*"]', 'L2 Field'),
    ('modality = ["CT"]', 'modality = ["C *"]', 'L2 Field'),
    ('modality = ["CT"]', 'modality = "C*"', 'L2 Field'),
    ('modality = ["CT"]', 'modality = ' + many('CT", "C*', 1024), None),
    ('modality = ["CT"]', f'modality = {many("C*", 1025)}', 'L6 Limit'),
    ('keep = true', 'modality = "C*"', None),
    ('keep = true', 'modality = "C**"', 'L2 Field'),
    ('keep = true', 'class = "1.2*"', 'L4 UnknownName'),
    # stations that a rule excepts
    ('keep = true', 'keep = true\nexcept = []', None),
    ('keep = true', 'keep = true\nexcept = ["S2"]', None),
    ('keep = true', 'keep = true\nexcept = ["S2", "", "S 3", "S2"]', None),
    ('keep = true', 'keep = true\nstation = "S*"\nexcept = ["S2", "T1"]', None),
    ('keep = true', 'keep = true\nstation = "S1"\nexcept = ["S1"]', None),
    ('keep = true', 'keep = true\nexcept = "S2"', 'L2 Field'),
    ('keep = true', 'keep = true\nexcept = "*"', 'L2 Field'),
    ('keep = true', 'keep = true\nexcept = ["*"]', 'L2 Field'),
    ('keep = true', 'keep = true\nexcept = ["S2*"]', 'L2 Field'),
    ('keep = true', 'keep = true\nexcept = ["S2", " S3"]', 'L2 Field'),
    ('keep = true', 'keep = true\nexcept = ["S2 "]', 'L2 Field'),
    ('keep = true', 'keep = true\nexcept = [2]', 'L2 Field'),
    ('keep = true', 'keep = true\nexcept = ["@ct"]', None),
    ('keep = true', f'keep = true\nexcept = ["{64 * "S"}"]', None),
    ('keep = true', f'keep = true\nexcept = ["{65 * "S"}"]', 'L2 Field'),
    ('keep = true', f'keep = true\nexcept = {many("S2", 1025)}', None),
    ('keep = true', f'keep = true\nexcept = {json.dumps([f"S{n}" for n in range(1024)])}', None),
    ('keep = true', f'keep = true\nexcept = {json.dumps([f"S{n}" for n in range(1025)])}', 'L6 Limit'),
    ('modality = ["CT"]', 'modality = ["CT"]\nexcept = ["S1"]', 'L2 Field'),
    ('keep = true', 'keep = true\ncolour = 1', 'L2 Field'),
    # the first fault in the order of the pages
    ('at = "CT1"', 'at = "@scanners"\ncolour = 1', 'L2 Field'),
    ('name = "CT1"\naddress = "127.0.0.1:11101"', 'name = "CT1 "\naddress = "h:1"\n[[node.rule]]\nto = ["@archives"]', 'L4 UnknownName'),
]

# what stands in front of the plan of three nodes in format 3, what stands in the place of a text of it, and the fault
TABLES_OF_FORMAT_3 = [
    ('[set]\nct = ["MRImageStorage"]', '', '', None),
    (f'[set]\nours = ["{CT_NAME}", "1.2"]', FLOW_CLASS, 'class = "@ours"', None),
    ('[set]\nours = ["CT"]', '', '', None),
    ('[set]\nours = ["CT"]', FLOW_CLASS, 'class = "@ours"', 'L4 UnknownName'),
    ('[set]\nours = ["@ct"]', FLOW_CLASS, 'class = "@ours"', 'L4 UnknownName'),
    ('[set]\nours = []', '', '', 'L2 Field'),
    ('[set]\nours = "1.2"', '', '', 'L2 Field'),
    ('[set]\nours = [1]', '', '', 'L2 Field'),
    ('set = []', '', '', 'L2 Field'),
    ('[[set]]\nours = ["1.2"]', '', '', 'L2 Field'),
    ('[sets]\nours = ["1.2"]', '', '', 'L2 Field'),
    ('[set]\n"" = ["1.2"]', FLOW_CLASS, 'class = "@"', None),
    ('[group]\nscanners = ["CT1"]', 'at = "CT1"', 'at = "@scanners"', None),
    ('[group]\nscanners = ["CT1", "ARCH"]', 'at = "CT1"', 'at = "@scanners"', None),
    ('[group]\nscanners = ["CT1", "GATE"]', 'at = "CT1"', 'at = "@scanners"', 'L5 SelfRoute'),
    ('[group]\nscanners = ["CT9"]', '', '', None),
    ('[group]\nscanners = ["CT9"]', 'at = "CT1"', 'at = "@scanners"', 'L4 UnknownNode'),
    ('[group]\nscanners = ["@scanners"]', 'at = "CT1"', 'at = "@scanners"', 'L2 Field'),
    ('[group]\nct = ["CT1"]', FLOW_CLASS, 'class = "@ct"', None),
    ('[set]\nscanners = ["1.2"]', 'at = "CT1"', 'at = "@scanners"', 'L4 UnknownName'),
    (f'[group]\nall = {many("CT1", 1024)}', 'keep = true', 'keep = true\nfrom = "@all"\nclass = ["1.1", "1.2"]', 'L6 Limit'),
    (f'[group]\nall = {many("CT1", 1025)}', '', '', 'L6 Limit'),
    (f'[group]\nall = ["{"N" * 129}"]', '', '', 'L6 Limit'),
    (f'[set]\nall = ["CT", "{"N" * 129}"]', '', '', 'L6 Limit'),
    ('[group]\n' + '\n'.join(f'g{n} = ["CT1"]' for n in range(1024)), '', '', None),
    ('[group]\n' + '\n'.join(f'g{n} = ["CT1"]' for n in range(1025)), '', '', 'L6 Limit'),
    ('[group]\nall = ["CT1", "ARCH"]', 'keep = true', 'keep = true\nfrom = "@all"', None),
]

KEY = '1.2.840.10008.5.1.4.1.1.2\t1.2.840.10008.1.2.1'
ACCEPTS = '"1.2.840.10008.1.2.1"]\n[[node.rule]]\nkeep'
OTHER_SYNTAX = '"1.2.840.10008.1.2"]\n[[node.rule]]\nkeep'
KEEP = '[[node.rule]]\nkeep = true\n'


def changed(text, *pairs):
    for old, new in pairs:
        assert old in text
        text = text.replace(old, new)
    return text


def rules(text, gate, hub):
    return changed(text, ('GATE_RULES', gate), ('HUB_RULES', hub))


def rule(**fields):
    written = [f'{"from" if key == "caller" else key} = {value}' for key, value in fields.items()]
    return '\n'.join(['[[node.rule]]', *written])


TO_ARCH = 'from = "CT1"\nto = ["ARCH"]\n'
ANY = ('modality = ["CT"]', 'modality = "*"')
ENDLESS = rules(LOOP, rule(to='["HUB"]'), rule(to='["GATE"]'))
ONCE = rules(LOOP, rule(caller='"CT1"', to='["HUB"]') + '\n' + rule(caller='"HUB"', keep='true'), rule(caller='"GATE"', to='["GATE"]'))
WRONG_SYNTAX = changed(PLAN, (ACCEPTS, OTHER_SYNTAX))
NOWHERE = changed(PLAN, (KEEP, ''))
SHORT = changed('format = 3\n[group]\nscanners = ["CT1"]\n' + PLAN, (CT, CT_NAME), ('at = "CT1"', 'at = "@scanners"'))
STATIONS = changed('format = 2\n' + PLAN, ('station = ["S1"]', 'station = ["CT*"]'))
EXCEPTING = changed('format = 3\n' + PLAN, ('station = ["S1"]', 'station = ["CT*"]'), (TO_ARCH, 'station = "CT*"\nexcept = ["CT9"]\nto = ["ARCH"]\n'))


def sent(*stations):
    """The plan of format 2 in which GATE sends by a rule for each of these stations."""
    return changed(STATIONS, (TO_ARCH, '\n'.join(f'station = "{it}"\nto = ["ARCH"]\n[[node.rule]]' for it in stations).removesuffix('[[node.rule]]')))


def six_lines(one, other):
    """The rows of the certificate with two parts of the stations, in this order."""
    lines = [f'line\t{way}\tKEY\tCT\t{it}\t{rank}\n' for rank, way in ((2, '-\tCT1'), (1, 'CT1\tGATE'), (0, 'GATE\tARCH')) for it in (one, other)]
    return ''.join(['hop\tCT1\tGATE\t1\tKEY\nhop\tGATE\tARCH\t1\tKEY\n', *lines, 'end\n'])


# plans that aren't sound, and what is printed for them, with KEY for the class and the transfer syntax
UNSOUND = [
    (WRONG_SYNTAX, 'no\tNoContext\tKEY\tCT\tS1\tCT1\tGATE\tARCH\n'),
    (NOWHERE, 'no\tDeadEnd\tKEY\tCT\tS1\tCT1\tGATE\tARCH\n'),
    (changed(PLAN, ANY, (TO_ARCH, 'modality = "CT"\nto = ["ARCH"]\n[[node.rule]]\nmodality = "MR"\nto = ["ARCH"]\n')),
     'no\tDeadEnd\tKEY\t*\tS1\tCT1\tGATE\n'),
    (ENDLESS, 'no\tCycle\tKEY\tCT\tS1\tCT1\tGATE\tHUB\tGATE\tHUB\n'),
    # stations that begin with CT, and not with CT1, aren't sent on; nor those of the one station CT
    (sent('CT1*'), 'no\tDeadEnd\tKEY\tCT\tCT*\tCT1\tGATE\n'),
    (sent('CT'), 'no\tDeadEnd\tKEY\tCT\tCT*\tCT1\tGATE\n'),
    # entries are taken in the order of what is printed: ! comes before *
    (changed(sent('CT1*'), ('["CT*"]', '["CT*", "CT!"]')), 'no\tDeadEnd\tKEY\tCT\tCT!\tCT1\tGATE\n'),
    # what a rule excepts isn't sent on, be there one exception or more, in whatever order
    (EXCEPTING, 'no\tDeadEnd\tKEY\tCT\tCT9\tCT1\tGATE\n'),
    (changed(EXCEPTING, ('["CT9"]', '["CT9", "CT8", "CT9"]')), 'no\tDeadEnd\tKEY\tCT\tCT8\tCT1\tGATE\n'),
    # a rule that excepts its own station holds for nothing
    (changed(EXCEPTING, ('station = "CT*"\nexcept', 'station = "CT9"\nexcept')), 'no\tDeadEnd\tKEY\tCT\tCT*\tCT1\tGATE\n'),
    # where the last node neither accepts nor does anything, the hop is what is shown
    (changed(PLAN, ('"1.2.840.10008.1.2.1"]\n' + KEEP, '"1.2.840.10008.1.2"]\n')), 'no\tNoContext\tKEY\tCT\tS1\tCT1\tGATE\tARCH\n'),
]

THREE_NODES = '''\
hop	CT1	GATE	1	KEY
hop	GATE	ARCH	1	KEY
line	-	CT1	KEY	CT	S1	2
line	CT1	GATE	KEY	CT	S1	1
line	GATE	ARCH	KEY	CT	S1	0
end
'''

# sound plans, and their certificates behind the digest
SOUND = [
    ('', 'end\n'),
    (PLAN, THREE_NODES),
    (ONCE, '''\
hop	CT1	GATE	1	KEY
hop	GATE	HUB	1	KEY
hop	HUB	GATE	1	KEY
line	-	CT1	KEY	CT	S1	3
line	CT1	GATE	KEY	CT	S1	2
line	GATE	HUB	KEY	CT	S1	1
line	HUB	GATE	KEY	CT	S1	0
end
'''),
    # what no rule names has cells too
    (changed(PLAN, ANY, (TO_ARCH, 'to = ["ARCH"]\n' + rule(modality='"MR"', to='["ARCH"]') + '\n' + rule(modality='"CT"', to='["ARCH"]') + '\n')), '''\
hop	CT1	GATE	1	KEY
hop	GATE	ARCH	1	KEY
line	-	CT1	KEY	*	S1	2
line	-	CT1	KEY	CT	S1	2
line	-	CT1	KEY	MR	S1	2
line	CT1	GATE	KEY	*	S1	1
line	CT1	GATE	KEY	CT	S1	1
line	CT1	GATE	KEY	MR	S1	1
line	GATE	ARCH	KEY	*	S1	0
line	GATE	ARCH	KEY	CT	S1	0
line	GATE	ARCH	KEY	MR	S1	0
end
'''),
]

# sound plans of format 2, and their certificates behind the digest
SOUND_IN_FORMAT_2 = [
    ('format = 2', 'end\n'),
    ('format = 2\n' + PLAN, THREE_NODES),
    (sent('CT1*', 'CT*'), six_lines('CT*', 'CT1*')),
    (sent('CT', 'CT*'), six_lines('CT', 'CT*')),
]

CAUGHT = changed(EXCEPTING, ('to = ["ARCH"]\n', 'to = ["ARCH"]\n' + rule(station='"CT9"', keep='true') + '\n'))
TWO_WAYS = '''\
hop	CT1	GATE	1	KEY
hop	GATE	ARCH	1	KEY
line	-	CT1	KEY	CT	CT*	2
line	-	CT1	KEY	CT	CT9	1
line	CT1	GATE	KEY	CT	CT*	1
line	CT1	GATE	KEY	CT	CT9	0
line	GATE	ARCH	KEY	CT	CT*	0
end
'''

# sound plans of format 3 with exceptions, and their certificates behind the digest of their expansions
SOUND_IN_FORMAT_3 = [
    (CAUGHT, TWO_WAYS),
    (changed(CAUGHT, ('["CT9"]', '["CT9", "CT9"]')), TWO_WAYS),
    # an exception takes nothing from another rule: all that hold are done
    (changed(EXCEPTING, ('to = ["ARCH"]\n', 'to = ["ARCH"]\n' + rule(to='["ARCH"]') + '\n')), six_lines('CT*', 'CT9')),
    # one of a station that doesn't begin so has a part of its own, to which nothing comes
    (changed(EXCEPTING, ('["CT9"]', '["MR9"]')), THREE_NODES.replace('S1', 'CT*')),
    # an empty list excepts nothing
    (changed(EXCEPTING, ('["CT9"]', '[]')), THREE_NODES.replace('S1', 'CT*')),
]

FIRST, SECOND = THREE_NODES.splitlines(True)[:2]
LAST = THREE_NODES.splitlines(True)[4]

# what is changed in the certificate of the plan of three nodes, and the fault that this makes
VERDICTS = [
    ('S1\t2', 'S1\t3', 'C4 WrongRank'),
    ('S1\t1', 'S1\t0', 'C4 WrongRank'),
    (LAST, '', 'C3 MissingLine'),
    ('ARCH\t1\tKEY', 'ARCH\t3\tKEY', 'C7 HopList'),
    (SECOND, '', 'C7 HopList'),
    (FIRST, 'hop\tARCH\tCT1\t1\tKEY\n' + FIRST, 'C7 HopList'),
    ('line\tCT1', 'line\tARCH\tGATE\tKEY\tCT\tS1\t0\nline\tCT1', 'C8 Order'),
    (LAST, LAST + LAST, 'C8 Order'),
    (SECOND, SECOND + SECOND, 'C8 Order'),
    (FIRST + SECOND, SECOND + FIRST, 'C8 Order'),
    ('end\n', '', 'C1 Text'),
    ('end\n', 'end\n\n', 'C1 Text'),
    ('end\n', 'end\r\n', 'C1 Text'),
    ('S1\t0', 'S1\t00', 'C1 Text'),
    ('S1\t0', 'S1\t4294967296', 'C1 Text'),
]

# plans that aren't sound with a certificate's rows, and the fault
UNSOUND_VERDICTS = [
    (WRONG_SYNTAX, THREE_NODES, 'C5 NoContext'),
    (NOWHERE, THREE_NODES, 'C6 DeadEnd'),
    (ENDLESS, '''\
hop	CT1	GATE	1	KEY
hop	GATE	HUB	1	KEY
hop	HUB	GATE	1	KEY
line	-	CT1	KEY	CT	S1	4
line	CT1	GATE	KEY	CT	S1	3
line	GATE	HUB	KEY	CT	S1	2
line	HUB	GATE	KEY	CT	S1	1
end
''', 'C4 WrongRank'),
]

LINE = 'line\t-\tCT1\tC\t1.2.840.10008.1.2.1\tCT\tS1\t'
HOP = 'hop\tCT1\tGATE\t1\tC\t1.2.840.10008.1.2.1'

# what can't stand behind the digest of a certificate
NO_ROWS = [
    '\r\nend\n', LINE + '00\nend\n', LINE + '4294967296\nend\n', LINE + '+1\nend\n', LINE.replace('1.2.1', '1.2.4.50') + '0\nend\n',
    LINE.replace('S1\t', '') + '0\nend\n', HOP.replace('\t1\t', '\t256\t') + '\nend\n', HOP + '\t\nend\n', LINE + '0\n' + HOP + '\nend\n',
    'end\n\n', 'end', '', 65537 * (LINE + '4294967295\n') + 'end\n',
]
MOST_ROWS = 65536 * (LINE + '4294967295\n') + 'end\n'
"""A certificate's text of as many lines as there may be; but they are one, so not in order."""

# SHA-256 of nothing (FIPS 180-4), whose digits are in lower case
DIGEST_OF_NOTHING = 'e3b0c44298fc1c149afbf4c8996fb92427ae41e4649b934ca495991b7852b855'
