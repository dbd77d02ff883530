synthesis 1
# A way leads into the source: the line comes round again at each note.
# boot 1 6, status 0
queue q
queue rest
switch s q rest a q
thread t
say q a
poke s
poke s
poke s
hear q
poke s
