"""Which column of the CSV has which part in the job, by the words of the command."""

import os
from typing import List, Optional, Tuple

from argus_office.starting.csv_file import Source
from argus_office.starting.depths import Spanning, spanning
from argus_office.starting.names import free_name, names_for
from argus_office.starting.refusals import Refusal, counted, shown
from argus_office.starting.words import Usage, Words, decimals_of, levels_of


class Columns:
    """The words of a call as columns of its CSV, which are given by their numbers."""

    def __init__(self, words: Words) -> None:
        self.words = words
        self.source = Source(words.csv, words.encoding(), words.one.get("separator"), words.named())
        # The name that the metadata have for each column.
        self.made = names_for(self.source.names)
        self.missing = {"", *map(self.source.bytes_of, words.many["missing"])}
        self.choose_columns()

    def column(self, name: str) -> int:
        """The number of a column of the CSV."""
        return self.source.column(name, self.made)

    def choose_columns(self) -> None:
        """Which column has which part, by the words."""
        words = self.words
        self.is_count = "count" in words.flags
        if not (self.is_count or words.values) or not words.tables():
            raise self.unsaid()
        self.value = None if self.is_count else self.column(words.many["value"][0])
        self.weight = self.column(words.one["weight"]) if "weight" in words.one else None
        self.shapes = [[self.spanned(it) for it in table] for table in words.tables()]
        self.tables = [[it.column for it in table] for table in self.shapes]
        self.spanning = sorted({it for table in self.tables for it in table})
        self.check_tables()
        self.check_parts()
        self.choose_trees()
        self.check_trees()
        self.check_words()

    def unsaid(self) -> Usage:
        """What a newcomer is told who gave no more than the CSV."""
        names = ", ".join(shown(it) for it in self.source.names if it)
        return Usage("%s has the columns %s. Say which one is summed (--value), or that records "
                     "are counted (--count), and which ones span the table (--by)" %
                     (self.source.name, names))

    @property
    def response(self) -> str:
        """The name of the response in the metadata and in the job."""
        if self.value is not None:
            return self.made[self.value]
        return free_name("count", self.made)

    def spanned(self, word: str) -> Spanning:
        """The column and the level of a word of a table."""
        return spanning(self.source, self.made, word)

    def choose_trees(self) -> None:
        """What the words say of the trees of columns."""
        words, column = self.words, self.column
        self.levels = {column(name): levels_of(it, name) for name, it in words.pairs("levels")}
        self.tree_files = {column(name): path for name, path in words.pairs("tree")}
        self.leads = {column(name): lead for name, lead in words.pairs("lead")}
        self.parents = {column(name): column(group) for name, group in words.pairs("parent")}
        totals = [(name, word.strip(" \t")) for name, word in words.pairs("total")]
        self.totals = {column(name): self.source.bytes_of(word) for name, word in totals}
        self.chains = {it: self.chain(it) for it in self.spanning if it in self.parents}
        self.orders = {column(name): path for name, path in words.pairs("order")}
        rounds = {column(name): decimals_of(it, name) for name, it in words.pairs("round")}
        others = {column(it) for it in words.values} - {self.value}
        self.rounds = {it: decimals for it, decimals in rounds.items() if it not in others}

    def check_tables(self) -> None:
        """Refuses tables that argus doesn't take: 8 tables, 6 variables in one and 8 in all, none
        twice.
        """
        tables, variables = len(self.tables), len(self.spanning)
        if tables > 8 or variables > 8 or any(len(table) > 6 for table in self.tables):
            what = "%s with %s" % (counted(tables, "table"), counted(variables, "variable"))
            raise Refusal(what, "argus takes 8 tables with at most 6 variables each and 8 in all")
        for table in self.tables:
            twice = [it for it in table if table.count(it) > 1]
            if twice:
                name = shown(self.source.names[twice[0]])
                raise Refusal("a table names column %s twice" % name, "Give it once")

    def check_parts(self) -> None:
        """Refuses a column that is value and weight, or one of them and spans a table."""
        numeric = [it for it in (self.value, self.weight) if it in self.spanning]
        if numeric or (self.value is not None and self.value == self.weight):
            it = numeric[0] if numeric else self.value
            raise Refusal("column %s has two parts in the job" % self.shown(it),
                          "A column is the value, or the weight, or spans tables")

    def shown(self, column: Optional[int]) -> str:
        """The name of a column, fit for one line of a terminal."""
        return "" if column is None else shown(self.source.names[column])

    def check_trees(self) -> None:
        """Refuses words on trees of a column that has no tree, or that has another one already."""
        for it in (it for it in self.rounds if it not in (self.value, self.weight)):
            raise Refusal("--round %s=.., and this is neither the value nor the weight" %
                          self.shown(it), "Leave it out")
        named = [*self.levels, *self.tree_files, *self.totals, *self.leads, *self.orders]
        for it in (it for it in named if it not in self.spanning):
            raise Refusal("column %s spans no table" % self.shown(it), "Name it by --by or --table,"
                          " or leave its --levels, --tree, --lead, --order or --total out")
        several = [*self.levels, *self.tree_files, *self.parents, *self.orders]
        for it in (it for it in self.spanning if several.count(it) > 1):
            what = "column %s has more than one of --levels, --tree, --parent and --order"
            raise Refusal(what % self.shown(it), "Keep one: codes with levels have the order of "
                          "their tree")
        used = {*self.spanning, *(it for chain in self.chains.values() for it in chain)}
        for it in (it for it in self.parents if it not in used):
            raise Refusal("column %s spans no table" % self.shown(it),
                          "Name it by --by or --table, or leave its --parent out")

    def check_words(self) -> None:
        """Refuses a lead and a code of the total that argus doesn't take."""
        for lead in self.leads.values():
            is_plain = lead.isascii() and lead.isprintable() and " " not in lead
            if not 1 <= len(lead) <= 8 or not is_plain or '"' in lead:
                raise Refusal("--lead %s" % shown(lead), "A lead is 1 to 8 marks without blanks")
        for word in self.totals.values():
            if not word or '"' in word or (not word.isprintable() and word.isascii()):
                raise Refusal("--total %s" % shown(word),
                              "The code of the total is a word without double quotes")

    def chain(self, column: int) -> List[int]:
        """The columns of the groups above a column, from below."""
        found: List[int] = []
        while column in self.parents:
            column = self.parents[column]
            if column in found or len(found) > 9:
                raise Refusal(
                    "the --parent words go round in a circle", "The uppermost group has no --parent"
                )
            found.append(column)
        return found

    def priors(self) -> List[Tuple[int, str]]:
        """The a priori files with the numbers of their tables."""
        found = []
        for table, path in self.words.pairs("apriori"):
            if table not in [str(k + 1) for k in range(len(self.tables))]:
                raise Refusal(
                    "--apriori %s=.. names no table" % shown(table), "Tables are numbered from 1"
                )
            if not os.path.isfile(path):
                raise Refusal(
                    "there is no such file", "Correct the name of the a priori file",
                    shown(path, 80)
                )
            found.append((int(table), path))
        return found
