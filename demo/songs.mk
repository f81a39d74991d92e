# Packs songs as a part of a game's build. In its Makefile, behind the first rule:
#
#     GOAT  = goat
#     SONGS = title.sng ingame.sng
#     include songs.mk
#     game.prg: game.asm $(SONGS:.sng=.raw)
#     ingame.raw: ADDRESS = 2000
#
# Each song becomes a raw file of the same name, and is packed again where the song is newer. A song that goat refuses
# stops the build with the reason, and the raw file stays as it was. `make songs` packs all of SONGS.

GOAT    ?= goat
ADDRESS ?= 1000
ZP      ?= FC
SKIP    ?= none
SPEED   ?= 1
SYSTEM  ?= pal
CHIP    ?= 6581

.PHONY: songs
songs: $(SONGS:.sng=.raw)

%.raw: %.sng
	$(GOAT) pack $< $@ raw $(ADDRESS) $(ZP) $(SKIP) $(SPEED) $(SYSTEM) $(CHIP)

%.sid: %.sng
	$(GOAT) pack $< $@ psid $(ADDRESS) $(ZP) $(SKIP) $(SPEED) $(SYSTEM) $(CHIP)
