// Who was seen within the last five seconds: who goes. A tick is there to make an instant.
Register Stream Seen (id);
Register Stream Ticks (n);
Query departures: Select Dstream(id) From Seen [Range 5];
