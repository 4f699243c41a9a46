"""What the tools share."""
from .arguments import chosen, name, root, said, stop, usage, words
from .programs import COMMAND, LIBRARY, built, c_answers, compiled, module, oracle, output, replay, run, static_library, tool
from .sheets import as_bytes, place, seal, sheet
from .stream import answer, answers, case, cases_in, each_answer, flat, parts, replayed, text_of, told_by, whole
from .times import KINDS, UNITS, ass_time, span, srt_time, units_of
from .trims import WHITE_SPACE, asked, blank, whole_play
