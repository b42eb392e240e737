//! The worked problems, as files of the MovingAI formats.

/// A map, a scenario on it, and how many agents it has.
#[derive(Clone, Copy, Drop)]
pub(crate) struct Worked {
    pub(crate) map: &'static [u8],
    pub(crate) scen: &'static [u8],
    pub(crate) agents: u64,
}

/// Three cells in a row; one agent goes along.
pub(crate) const ALONG: Worked = Worked {
    map: b"type octile\nheight 1\nwidth 3\nmap\n...\n",
    scen: b"version 1\n0 line.map 3 1 0 0 2 0 2\n",
    agents: 1,
};

/// Three cells in a row; one agent is on its goal.
pub(crate) const AT_GOAL: Worked = Worked {
    map: b"type octile\nheight 1\nwidth 3\nmap\n...\n",
    scen: b"version 1\n0 line.map 3 1 1 0 1 0 0\n",
    agents: 1,
};

/// Three cells in a row; two agents would have to pass each other.
pub(crate) const CANNOT_PASS: Worked = Worked {
    map: b"type octile\nheight 1\nwidth 3\nmap\n...\n",
    scen: b"version 1\n0 line.map 3 1 0 0 2 0 2\n0 line.map 3 1 2 0 0 0 2\n",
    agents: 2,
};

/// A wall between start and goal.
pub(crate) const WALLED: Worked = Worked {
    map: b"type octile\nheight 1\nwidth 3\nmap\n.@.\n",
    scen: b"version 1\n0 wall.map 3 1 0 0 2 0 2\n",
    agents: 1,
};

/// Four cells in a square; one agent goes across.
pub(crate) const ACROSS: Worked = Worked {
    map: b"type octile\nheight 2\nwidth 2\nmap\n..\n..\n",
    scen: b"version 1\n0 square.map 2 2 0 0 1 1 2\n",
    agents: 1,
};

/// Four cells in a square; four agents turn in a ring.
pub(crate) const RING: Worked = Worked {
    map: b"type octile\nheight 2\nwidth 2\nmap\n..\n..\n",
    scen: b"version 1\n0 square.map 2 2 0 0 1 0 1\n0 square.map 2 2 1 0 1 1 1\n0 square.map 2 2 1 1 0 1 1\n0 square.map 2 2 0 1 0 0 1\n",
    agents: 4,
};

/// Four cells in a square; two agents change places.
pub(crate) const CHANGE: Worked = Worked {
    map: b"type octile\nheight 2\nwidth 2\nmap\n..\n..\n",
    scen: b"version 1\n0 square.map 2 2 0 0 1 0 1\n0 square.map 2 2 1 0 0 0 1\n",
    agents: 2,
};

/// A corridor with a bay; one agent has to leave its goal for the other.
pub(crate) const BAY: Worked = Worked {
    map: b"type octile\nheight 2\nwidth 3\nmap\n...\n@.@\n",
    scen: b"version 1\n0 bay.map 3 2 1 0 1 0 0\n0 bay.map 3 2 0 0 2 0 2\n",
    agents: 2,
};

/// Nine cells in a square; two agents cross in the middle.
pub(crate) const CROSSING: Worked = Worked {
    map: b"type octile\nheight 3\nwidth 3\nmap\n...\n...\n...\n",
    scen: b"version 1\n0 open.map 3 3 1 0 1 2 2\n0 open.map 3 3 0 1 2 1 2\n",
    agents: 2,
};

/// Two paths of one cost that differ at more than one place.
pub(crate) const TWO_WAYS: Worked = Worked {
    map: b"type octile\nheight 5\nwidth 5\nmap\n@....\n..@@.\n.@@@.\n.@...\n...@@\n",
    scen: b"version 1\n0 ways.map 5 5 1 1 3 3 8\n",
    agents: 1,
};

/// Four cells in a row; two agents face each other and would have to pass.
pub(crate) const FACING: Worked = Worked {
    map: b"type octile\nheight 1\nwidth 4\nmap\n....\n",
    scen: b"version 1\n0 row.map 4 1 0 0 2 0 2\n0 row.map 4 1 3 0 1 0 2\n",
    agents: 2,
};
