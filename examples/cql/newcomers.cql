// NEXMark, query 8: who came and opened an auction within the last twelve hours.
Register Stream Person (person, city);
Register Stream Auction (auction, seller);
Query newcomers: Select Istream(person, city)
    From Person [Range 43200 Seconds], Auction [Range 43200 Seconds]
    Where person = seller;
