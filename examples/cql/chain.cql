// Who came in where something moved, and all that moved there within the twenty seconds before.
Register Stream Door (room, open);
Register Stream Motion (room, level);
Query entered: Select Rstream(Door.room, level)
    From Door [Now], Motion [Range 10 Seconds]
    Where Door.room = Motion.room And open = 1;
Query moved: Select Rstream(entered.room, m.level)
    From entered [Now], Motion [Range 20 Seconds] As m
    Where entered.room = m.room;
