// Who came in where something moved within the ten seconds before.
Register Stream Door (room, open);
Register Stream Motion (room, level);
Query entered: Select Rstream(Door.room, level)
    From Door [Now], Motion [Range 10 Seconds]
    Where Door.room = Motion.room And open = 1;
