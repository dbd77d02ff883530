synthesis 1
# A full way holds its line, and the line behind it stays in the source: none overtakes.
# boot 1 5, status 4
# boot 1 10, status 0
queue in
queue rest
queue q
switch s in rest a q
thread t
say q abcdefghijklmnopqrstuvwxyzabcdefghijklmnopqrstuvwxyzabcdefghijk
say in a
say in b
poke s
poke s
hear q
poke s
poke s
hear q
hear rest
