# table.sed: a table of a spreadsheet as teg and these scripts read it, by GNU sed (on a Mac gsed).

# a mark at the start of the file, line ends of another system
1s/^\xef\xbb\xbf//
s/\r$//
# cells that were copied have tabs between them
/[,;]/!s/\t/,/g
# in a row with semicolons a comma is that of a decimal number: teg refuses 40.5
/;/s/,/./g
s/;/,/g
# blanks and tabs beside commas and at both ends, and commas at the end
s/[ \t]*,[ \t]*/,/g
s/^[ \t]*//
s/[ ,\t]*$//
# a first row without a digit is a header
1{/[0-9]/!s/.*/transition,number,date/}
