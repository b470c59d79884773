"""What start makes of a CSV: variables, trees and numbers, and the files with their texts."""

import os
from typing import Dict, List, Optional, Sequence, TextIO, Tuple

from argus_office.starting.amounts import Marks, Numbers
from argus_office.starting.columns import Columns
from argus_office.starting.compare import Comparison, Wanted
from argus_office.starting.counts import (
    check_count_rules, counts_of, first_safe, prior_lines_of, separator_for
)
from argus_office.starting.csv_file import Records
from argus_office.starting.depths import Spanning, cells_of
from argus_office.starting.job import (
    COUNT_RULES, EXAMPLE_RULES, Plan, Prior, called, check_method, check_rules, job_text
)
from argus_office.starting.layout import Field, Layout, code_field, number_field
from argus_office.starting.places import check_places, file_name, output_names, stem_of
from argus_office.starting.refusals import Difference
from argus_office.starting.trees import Tree, Variable
from argus_office.starting.words import Words

MOST_CELLS = 60000
VALUE_DECIMALS, WEIGHT_DECIMALS = 9, 4
VALUE_LIMIT, WEIGHT_LIMIT = 10**15, 10**8


class Making(Columns):
    """What is made of a CSV: variables, trees, numbers, and the files with their texts."""

    def __init__(self, words: Words) -> None:
        super().__init__(words)
        self.out = words.one.get("out") or os.path.dirname(words.csv) or "."
        self.stem = stem_of(words.csv) + ("_" + self.response if words.is_part else "")
        example = COUNT_RULES if self.is_count else EXAMPLE_RULES
        self.rules = check_rules(words.one.get("rule", example), self.weight is not None)
        self.rules = check_count_rules(self.rules) if self.is_count else self.rules
        self.method = check_method(words.one.get("method", "MOD()"), "contributors" in words.flags)
        self.outputs = output_names(self.stem, len(self.tables))
        lists = [*self.tree_files.values(), *self.orders.values()]
        self.inputs = [words.csv, *lists, *(path for _, path in self.priors())]
        later = [*self.outputs, self.stem + ".cert", self.stem + ".extra"]
        check_places(self.out, [*self.own_files(), *later], self.inputs, "force" in words.flags)

    # Records.

    def read(self) -> None:
        """Reads the records, and works out numbers, codes, trees and the number of cells."""
        groups = {it for chain in self.chains.values() for it in chain}
        self.used = {*self.spanning, *groups, *self.numeric()}
        self.records = Records(self.source, sorted(self.used))
        if self.value is None:
            self.take_ones()
        else:
            self.read_numbers(self.value)
        self.kept = [it is not None for it in self.units]
        self.variables = [self.variable(it) for it in self.spanning]
        self.trees = [self.tree(it) for it in self.variables]
        self.cells = cells_of([self.boxes(it) for it in self.shapes], self.trees)
        if self.cells > MOST_CELLS:
            raise self.source.refuse(
                "the tables have {:,} cells, and argus takes {:,}".format(self.cells, MOST_CELLS),
                "Take fewer variables in a table, or columns with fewer codes"
            )
        if self.is_count:
            self.count_cells()

    def numeric(self) -> List[int]:
        """The columns of numbers: the weight and the value, where there are such."""
        return [it for it in (self.weight, self.value) if it is not None]

    def count_cells(self) -> None:
        """Counts the records of each cell, for the a priori files."""
        tables = [self.boxes(it) for it in self.shapes]
        self.counts = counts_of(self.variables, self.trees, tables)
        self.separator = separator_for(self.counts)

    def variable(self, column: int) -> Variable:
        """A column that spans a table, with its codes."""
        total = self.totals.get(column, "Total")
        return Variable(self.source, self.records, column, self.kept, self.missing, total)

    def boxes(self, table: Sequence[Spanning]) -> List[Tuple[int, int]]:
        """Which variables span a table, and the last level that it shows of each."""
        return [(self.spanning.index(it.column), it.last()) for it in table]

    def take_ones(self) -> None:
        """Counts: the response is 1 in each record."""
        self.marks = Marks(".", None)
        self.units: List[Optional[int]] = [1 for _ in self.records.lines]
        self.decimals = 0

    def read_numbers(self, value: int) -> None:
        """The value and the weight in units of their last decimals."""
        numbers = Numbers(
            self.source, self.records, self.numeric(), self.missing, self.words.one.get("decimal")
        )
        self.marks = numbers.marks
        self.units, self.decimals = numbers.amounts(
            value, VALUE_DECIMALS, VALUE_LIMIT, self.rounds.get(value)
        )
        self.changes = {it: numbers.change(it, wanted) for it, wanted in self.rounds.items()}
        if all(it is None for it in self.units):
            raise self.source.refuse(
                "no record has a number",
                "Take another column as --value",
                column=self.shown(value)
            )
        if self.weight is not None:
            self.weights, self.weight_decimals = numbers.amounts(
                self.weight, WEIGHT_DECIMALS, WEIGHT_LIMIT, self.rounds.get(self.weight)
            )
            for row, (unit, weight) in enumerate(zip(self.units, self.weights)):
                if unit is not None and (weight is None or weight < 10**self.weight_decimals):
                    what = "no weight" if weight is None else "the weight is below 1"
                    raise numbers.refuse(
                        row, self.weight, what,
                        "Each record with a value needs a weight of at least 1"
                    )

    def tree(self, variable: Variable) -> Tree:
        """The tree of a variable, by the words."""
        it = variable.column
        if it in self.levels:
            return variable.by_levels(self.levels[it])
        if it in self.tree_files:
            found = variable.listed(self.tree_files[it], self.leads.get(it, "@"), self.out)
        elif it in self.chains:
            found = variable.by_parents(self.chains[it])
        elif it in self.orders:
            found = variable.ordered(self.orders[it], self.out)
            name = "%s_%s.cdl" % (self.stem, self.made[it])
            return found if found.text is None else found._replace(order=name)
        else:
            return variable.flat()
        return found if found.text is None else found._replace(file=self.tree_name(it))

    def tree_name(self, column: int) -> str:
        """The name of a hierarchy file that start writes."""
        return "%s_%s.hrc" % (self.stem, self.made[column])

    # Files.

    def own_files(self) -> List[str]:
        """The files that start writes, but for a hierarchy file of the office that it has to write
        anew.
        """
        own = [self.stem + it for it in (".asc", ".rda", ".job")]
        own += self.count_names() if self.is_count else []
        return own + [self.tree_name(it) for it in self.chains]

    def count_names(self) -> List[str]:
        """The names of the a priori files of counts."""
        several = len(self.tables) > 1
        names = ("%s_counts%s.hst" % (self.stem, k + 1 if several else "")
                 for k in range(len(self.tables)))
        return list(names)

    def count_texts(self) -> Dict[str, str]:
        """The a priori files of counts."""
        how = self.separator, first_safe(self.rules), self.is_rounded()
        texts = ["".join(prior_lines_of(it, *how)) for it in self.counts]
        return dict(zip(self.count_names(), texts))

    def is_rounded(self) -> bool:
        """Whether the job rounds."""
        return (called(self.method) or ("",))[0] == "RND"

    def priors_of_job(self) -> List[Prior]:
        """The a priori files as the job names them."""
        if self.is_count:
            names = enumerate(self.count_names(), 1)
            return [Prior(table, name, self.separator) for table, name in names]
        paths = [(table, os.path.relpath(path, self.out)) for table, path in self.priors()]
        return [Prior(table, file_name(path)) for table, path in paths]

    def fields(self) -> List[Field]:
        """The variables of the metadata: those that span tables in the order of the CSV, the
        weight, the response.
        """
        texts, made = self.records.columns, self.made
        found = [
            code_field(made[it.column], it.codes, it.missing, it.total, tree)
            for it, tree in zip(self.variables, self.trees)
        ]
        if self.weight is not None:
            name, decimals = made[self.weight], self.weight_decimals
            found.append(number_field(name, self.weights, decimals, texts[self.weight], True))
        spelled = ["1"] * len(self.units) if self.value is None else texts[self.value]
        return [*found, number_field(self.response, self.units, self.decimals, spelled, False)]

    def plan(self) -> Plan:
        """What the job says."""
        one, names, stem = self.words.one, self.made, self.stem
        return Plan(
            csv=self.source.name,
            microdata=stem + ".asc",
            metadata=stem + ".rda",
            tables=[[names[it] for it in table] for table in self.tables],
            response=self.response,
            rules=self.rules,
            is_example="rule" not in one,
            priors=self.priors_of_job(),
            cost=one.get("cost", "VALUE").upper(),
            steps=one.get("steps", ""),
            nodes=one.get("nodes", ""),
            method=self.method,
            outputs=self.outputs,
            certificate=stem + ".cert",
            contributors=stem + ".extra",
            is_guarded="contributors" in self.words.flags,
            depths=[(number, names[it.column], it.last()) for number, it in self.cut()],
            is_count=self.is_count,
        )

    def cut(self) -> List[Tuple[int, Spanning]]:
        """The variables that a table shows down to a level, with the number of the table."""
        all_ = [(number, it) for number, table in enumerate(self.shapes, 1) for it in table]
        return [(number, it) for number, it in all_ if it.level is not None]

    def write(self, folder: str) -> List[str]:
        """Writes all files into a folder of their own, and gives their names. Codes are written as
        their bytes.
        """
        layout = Layout(self.fields(), self.source.name)
        trees = {it.file or it.order: it.text for it in self.trees if it.text is not None}
        texts = {self.stem + ".rda": layout.metadata(), **trees}
        texts.update(self.count_texts() if self.is_count else {})
        microdata, job = self.stem + ".asc", self.stem + ".job"
        with new_file(folder, microdata, "latin-1") as file:
            file.writelines(layout.records())
        for name, text in texts.items():
            with new_file(folder, name, "latin-1") as file:
                file.write(text)
        with new_file(folder, job, "utf-8") as file:
            file.write(job_text(self.plan()))
        names = [microdata, job, *texts]
        for name in names:
            # Who may not read the CSV may not read these.
            os.chmod(os.path.join(folder, name), os.stat(self.words.csv).st_mode & 0o666)
        return names

    def compare(self, folder: str) -> None:
        """Compares the files with the CSV before they are put in their places."""
        wanted = [Wanted(it, self.chains.get(it, ())) for it in self.spanning]
        wanted += [Wanted(it, (), self.rounds.get(it)) for it in self.numeric()]
        wanted += [Wanted(None, ())] if self.is_count else []
        count = Comparison(self.source, folder, self.stem, wanted, self.missing, self.marks).run()
        if count != len(self.records.lines):
            raise Difference(
                "%d records were compared, and %d read" % (count, len(self.records.lines))
            )


def new_file(folder: str, name: str, encoding: str) -> TextIO:
    """A file to write to, whose lines end with one byte."""
    return open(os.path.join(folder, name), "w", encoding=encoding, newline="\n")
