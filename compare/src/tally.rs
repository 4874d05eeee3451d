//! How many of each kind were compared.

#[derive(Clone, Debug, Default)]
pub struct Tally {
    pub rounds: u64,
    pub rays: u64,
    pub rays_refused: u64,
    pub lists: u64,
    pub list_beams: u64,
    pub lists_refused: u64,
    pub struct_lists: u64,
    pub struct_beams: u64,
    pub verticals: u64,
    pub verticals_refused: u64,
    pub changed: u64,
    pub marks: u64,
    pub sets: u64,
    pub reads: u64,
    pub cells: u64,
    pub samples: u64,
    pub listed_samples: u64,
    pub opens: u64,
    pub lent_opens: u64,
    pub resets: u64,
    pub news: u64,
    pub lines: u64,
    pub steps: u64,
    pub added: u64,
    pub banded: u64,
    pub large_maps: u64,
    pub cells_compared: u64,
    pub longest_axis: u64,
}

impl Tally {
    /// Beams that both sides were asked for: rays, and of each list the beams up to the refused one.
    pub fn beams(&self) -> u64 {
        self.rays + self.list_beams
    }

    pub fn print(&self, axes: usize) {
        let (large, longest) = (self.large_maps, self.longest_axis);
        println!("{axes} axes:");
        line("maps", self.rounds, &format!("({large} of them large; longest axis {longest})"));
        line("beams", self.beams(), "");
        line("  one by one", self.rays, &format!("({} refused)", self.rays_refused));
        line("  in lists", self.list_beams, &format!("({} lists, {} refused)", self.lists, self.lists_refused));
        line("    of them as structs", self.struct_beams, &format!("({} lists)", self.struct_lists));
        line("  marks that changed a cell", self.changed, "");
        line("vertical beams", self.verticals, &format!("({} refused)", self.verticals_refused));
        line("marks", self.marks, "");
        line("sets", self.sets, "");
        line("reads", self.reads, "");
        line("cells of points", self.cells, "");
        line("samples", self.samples, "");
        line("  again, many in one call", self.listed_samples, "");
        line("opens", self.opens, &format!("({} in a lent head)", self.lent_opens));
        line("resets", self.resets, "");
        line("new maps", self.news, "");
        line("lines", self.lines, &format!("({} steps)", self.steps));
        line("added refusals", self.added, "");
        line("beams on unequal bands", self.banded, "");
        line("pairs of odds and stamp", self.cells_compared, "");
    }
}

fn line(name: &str, number: u64, note: &str) {
    println!("{}", format!("  {name:<28}{number:>12}  {note}").trim_end());
}
