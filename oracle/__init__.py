"""What shares nothing with PSI: plain programs that say what it has to answer."""
