//! What --help prints.

pub const ALL: &str = "\
usage: funnelcress COMMAND ..

  tree      panes to the words of a plain binary tree over them
  join      two trees to one under a new root
  convert   a tree's words to a record and its index list
  check     whether a record is sound
  any-hit   the positions that each ray passes
  closest   the nearest pane of each ray
  miss      whether each ray meets nothing
  report    what each ray loses to the panes that it meets, and what each pane takes

`funnelcress COMMAND --help` has the words and an example of each. The status is 0 only where nothing was refused and
the record is sound, 1 where something was, and 2 for words that no command takes. What is wrong is said on standard
error. Every answer is the proved library's; a report over several threads adds up its parts here.
";

pub const TREE: &str = "\
usage: funnelcress tree PANES -o TREE [--limit L] [--order 0|1]

PANES has a box a line, min x y z max x y z (what stands behind is left), or packed floats where its name ends in .f32.
TREE is written as little-endian words: n, leaf limit, order, seven words a node, n index words.

example: funnelcress tree house.txt -o house.tree
";

pub const JOIN: &str = "\
usage: funnelcress join FIRST SECOND --panes N -o TREE [--limit L] [--order 0|1]

Writes TREE, the trees of FIRST and SECOND under a new root whose box is the union of theirs: FIRST's leaves, then
SECOND's, all other boxes as they were. N is how many panes FIRST is over, and is added to each index word of SECOND: in
TREE the panes of FIRST come first, then those of SECOND, and so must they in a list of panes or losses. Next to an empty
tree the other stays as it is. The leaf limit and the order written are those of FIRST unless given.

example: funnelcress join house.tree annex.tree --panes 42 -o both.tree
";

pub const CONVERT: &str = "\
usage: funnelcress convert TREE -o NAME [--limit L] [--order 0|1] [--spans SPANS [--panes N]] [--json]

Converts a tree's words to NAME.record (n as a word, then 80 bytes a node) and NAME.list (n index words). The leaf limit,
0 to 3, and the order are those of TREE unless given.

With SPANS the panes are there at some quarter hours of the day alone, and NAME.side is written too, 16 bytes a node, for a
report at quarter hours. SPANS has the first and the last quarter hour of each pane, 0 to 95, two whole numbers a line (a
name may stand behind them), or packed bytes where its name ends in .u8; 32 is 8:00, 95 begins at 23:45. What is there over
midnight is two panes. There are as many panes as spans unless --panes says how many.

example: funnelcress convert house.tree -o house
example: funnelcress convert house.tree -o house --spans spans.txt
";

pub const CHECK: &str = "\
usage: funnelcress check RECORD [--json]

Prints `sound LEVEL`, `unsound` or `refused NUMBER`, as the program checkrecord does; the status is 0 for sound only.

example: funnelcress convert house.tree -o house && funnelcress check house.record
";

pub const ANY_HIT: &str = "\
usage: funnelcress any-hit RECORD RAYS [--json] [--threads N]

A line a ray: its number, the node tests, and the positions that it passes. RAYS has eight floats a line (origin,
direction, tmin, tmax; `inf` is a number, and -0 in origin or direction is 0), or packed ones where its name ends in .f32.

example: funnelcress any-hit house.record rays.txt
";

pub const CLOSEST: &str = "\
usage: funnelcress closest RECORD LIST PANES RAYS [--json] [--threads N]

A line a ray: its number, the node tests, and the nearest position with its pane and distance, or `none`. A pane that
the ray enters before its tmin, or from its tmax on, is none.

example: funnelcress closest house.record house.list house.txt rays.txt
";

pub const MISS: &str = "\
usage: funnelcress miss RECORD LIST PANES RAYS [--json] [--threads N]

A line a ray: its number, the node tests, and `missed` or `blocked`.

example: funnelcress miss house.record house.list house.txt rays.txt
";

pub const REPORT: &str = "\
usage: funnelcress report RECORD LIST LOSSES RAYS [--panes N] [--side SIDE --spans SPANS --quarters QUARTERS] [--json]
                          [--threads N]

A line a ray, `ray NUMBER LOSS`: what the panes of all positions that it passes, those that any-hit lists, take from it.
Then a line a pane, `pane NUMBER LOSS`: what it takes from all rays together. Last the node tests of all rays. The losses
of the rays add up to those of the panes. One ray that is refused refuses the report, and so do more than 65,536 rays.

LOSSES has a whole number a line for each pane, in thousandths of a decibel, 0 to 1,000,000 (a name may stand behind it),
or packed words where its name ends in .u32. There are as many panes as losses unless --panes says how many. Each
thread's part of the rays is a report of the proved library; that the parts' pane totals and tests are added up is not
proved: --threads 1 makes one call.

With SIDE, SPANS and QUARTERS a ray meets only panes that are there at its quarter hour: SIDE and SPANS are what `convert
--spans` wrote and read, and QUARTERS has a whole number a line for each ray, 0 to 95, or packed bytes where its name ends in
.u8.

example: funnelcress report house.record house.list losses.txt rays.txt
example: funnelcress report house.record house.list losses.txt rays.txt --side house.side --spans spans.txt --quarters quarters.txt
";
