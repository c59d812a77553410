//! The helpers of the C face: results, positions, cells and lists taken apart and put together. Each takes any bytes.

declare! {
    /// The status of a result.
    pub fn status = umbristal_status(result: u64) -> u8;

    /// The type of the segment that was got, inserted, replaced or deleted.
    pub fn r#type = umbristal_type(result: u64) -> u8;

    /// Its level.
    pub fn level = umbristal_level(result: u64) -> u8;

    /// How many data bytes it has.
    pub fn length = umbristal_length(result: u64) -> u8;

    /// How many segments a delete took away.
    pub fn removed = umbristal_removed(result: u64) -> u32;

    /// How many segments a report shows.
    pub fn hits = umbristal_hits(result: u64) -> u32;

    /// The two letters of a status number and a zero.
    pub fn letters = umbristal_letters(status: u8, letters: &mut [u8; 3]) -> ();

    /// 1 where the place is on a cell.
    pub fn on_cell = umbristal_on_cell(pos: &[u8; 8]) -> u8;

    /// The cell that the place is on, or before.
    pub fn cell = umbristal_cell(pos: &[u8; 8]) -> u16;

    /// 1 where there is a parentage.
    pub fn has_parentage = umbristal_has_parentage(pos: &[u8; 8]) -> u8;

    /// Its cell.
    pub fn parentage = umbristal_parentage(pos: &[u8; 8]) -> u16;

    /// 1 where there is a hold.
    pub fn hold = umbristal_hold(pos: &[u8; 8]) -> u8;

    /// How long an area must be.
    pub fn area_size = umbristal_area_size(cat: &[u8]) -> u8;

    /// How long a table of so many cells is; 0 for more than there can be.
    pub fn table_size = umbristal_table_size(cat: &[u8], cells: usize) -> usize;

    /// How many segments a table has.
    pub fn count = umbristal_count(tab: &[u8]) -> usize;

    /// The type of the segment in a cell; 0 where there is none.
    pub fn cell_type = umbristal_cell_type(tab: &[u8], cell: usize) -> u8;

    /// At which byte of the table its data begin.
    pub fn data_start = umbristal_data_start(tab: &[u8], cell: usize) -> usize;

    /// How many bytes they are.
    pub fn data_length = umbristal_data_length(cat: &[u8], tab: &[u8], cell: usize) -> u8;

    /// An argument without a test behind so many bytes of a list; how many it has then.
    pub fn list_all = umbristal_list_all(list: &mut [u8; 1845], used: usize, code: u8) -> usize;

    /// An argument with a test.
    pub fn list_test = umbristal_list_test(
        cat: &[u8], list: &mut [u8; 1845], used: usize, code: u8, operation: u8, field: u8, value: &[u8]
    ) -> usize;
}
