// Who was seen within the last five seconds: who comes and who goes.
Register Stream Seen (id);
Query arrivals: Select Istream(id) From Seen [Range 5];
Query departures: Select Dstream(id) From Seen [Range 5];
