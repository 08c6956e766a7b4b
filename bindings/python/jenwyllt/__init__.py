"""The kept boundaries of a map by the proved library, for Python: standard library only, over libjenwyllt.so."""
from ._library import NotBuilt
from .accession import Accession, report_line
from .desks import Desk, Desks, two_desks
from .dominance import Dominance, Share, dominance
from .game import Game, KeptGame, Verdict, Winner, runner_and_guard, solve_game
from .hypotenuse import hypot, hypotenuse
from .kept import Kept, Region, Row, kept_boundaries
from .new_sheet import convert_sheet, write_sheet
from .partition import Pair, Partition, Tally, partition
from .pool import Date, Entry, Term, maps_of_day
from .ranked import Ranked, RankedProposal, ranked_junctions
from .refusal import Cause, Refusal
from .report import Figures, Mean, Report, empty_report, mean_kept, report_run, report_sheet
from .rest import Rested, run_to_rest
from .results import RunResult, read_result, write_result
from .separations import Separation, separations
from .sheet import Boundary, Kind, Point, Sheet, Span, read_sheet, sheet_bytes

__version__ = '0.2.0'
__all__ = [
    'Accession', 'Boundary', 'Cause', 'Date', 'Desk', 'Desks', 'Dominance', 'Entry', 'Figures', 'Game', 'Kept', 'KeptGame', 'Kind', 'Mean', 'NotBuilt', 'Pair', 'Partition', 'Point', 'Ranked', 'RankedProposal', 'Refusal', 'Region', 'Report', 'Rested', 'Row', 'RunResult', 'Separation', 'Share', 'Sheet', 'Span', 'Tally', 'Term', 'Verdict', 'Winner', 'convert_sheet', 'dominance', 'empty_report', 'hypot', 'hypotenuse', 'kept_boundaries', 'maps_of_day', 'mean_kept', 'partition', 'ranked_junctions', 'read_result', 'read_sheet', 'report_line', 'report_run', 'report_sheet', 'run_to_rest', 'runner_and_guard', 'separations', 'sheet_bytes', 'solve_game', 'two_desks', 'write_result', 'write_sheet']
