//! The functions of `include/sefgrunn.h` as Rust declares them.

extern "C" {
    pub fn sefgrunn_check(document: *const u8, n: usize, place: *mut usize) -> u32;
    pub fn sefgrunn_console(
        document: *const u8,
        n: usize,
        width: usize,
        full: bool,
        characters: bool,
        room: *mut u8,
        room_len: usize,
        at: *mut usize,
    ) -> u32;
    pub fn sefgrunn_house_shape(
        document: *const u8,
        n: usize,
        shaped: *mut u32,
        place: *mut usize,
    ) -> u32;
    pub fn sefgrunn_room_bound(document: *const u8, n: usize, at: *mut usize) -> u32;
    pub fn sefgrunn_tabstop(
        document: *const u8,
        n: usize,
        tabstop: *mut usize,
        at: *mut usize,
    ) -> u32;
    pub fn sefgrunn_next_chunk(
        body: *const u8,
        n: usize,
        at: *mut usize,
        ticks: *mut u32,
        start: *mut usize,
        length: *mut usize,
        width: *mut usize,
    ) -> u32;
    pub fn sefgrunn_html(
        document: *const u8,
        n: usize,
        full: bool,
        css: bool,
        room: *mut u8,
        room_len: usize,
        at: *mut usize,
    ) -> u32;
    pub fn sefgrunn_html_strict(
        document: *const u8,
        n: usize,
        full: bool,
        css: bool,
        room: *mut u8,
        room_len: usize,
        at: *mut usize,
    ) -> u32;
    pub fn sefgrunn_markdown(
        document: *const u8,
        n: usize,
        full: bool,
        room: *mut u8,
        room_len: usize,
        at: *mut usize,
    ) -> u32;
    pub fn sefgrunn_roff(
        document: *const u8,
        n: usize,
        room: *mut u8,
        room_len: usize,
        at: *mut usize,
    ) -> u32;
    pub fn sefgrunn_join(
        document: *const u8,
        n: usize,
        room: *mut u8,
        room_len: usize,
        at: *mut usize,
    ) -> u32;
    pub fn sefgrunn_unjoin(
        joined: *const u8,
        n: usize,
        room: *mut u8,
        room_len: usize,
        at: *mut usize,
    ) -> u32;
    pub fn sefgrunn_joined_check(joined: *const u8, n: usize, place: *mut usize) -> u32;
    pub fn sefgrunn_joined_console(
        joined: *const u8,
        n: usize,
        width: usize,
        full: bool,
        characters: bool,
        room: *mut u8,
        room_len: usize,
        at: *mut usize,
    ) -> u32;
    pub fn sefgrunn_joined_html(
        joined: *const u8,
        n: usize,
        full: bool,
        css: bool,
        room: *mut u8,
        room_len: usize,
        at: *mut usize,
    ) -> u32;
    pub fn sefgrunn_joined_html_strict(
        joined: *const u8,
        n: usize,
        full: bool,
        css: bool,
        room: *mut u8,
        room_len: usize,
        at: *mut usize,
    ) -> u32;
    pub fn sefgrunn_joined_markdown(
        joined: *const u8,
        n: usize,
        full: bool,
        room: *mut u8,
        room_len: usize,
        at: *mut usize,
    ) -> u32;
    pub fn sefgrunn_joined_roff(
        joined: *const u8,
        n: usize,
        room: *mut u8,
        room_len: usize,
        at: *mut usize,
    ) -> u32;
    pub fn sefgrunn_figures(
        bundle: *const u8,
        n: usize,
        documents: *mut usize,
        accepted: *mut usize,
        refused: *mut usize,
        characters: *mut usize,
        place: *mut usize,
    ) -> u32;
    pub fn sefgrunn_merge(
        first: *const u8,
        n: usize,
        second: *const u8,
        m: usize,
        room: *mut u8,
        room_len: usize,
        at: *mut usize,
    ) -> u32;
    pub fn sefgrunn_notes(
        notes: *const u8,
        n: usize,
        room: *mut u8,
        room_len: usize,
        at: *mut usize,
    ) -> u32;
    pub fn sefgrunn_page_count(text: *const u8, n: usize, height: usize, count: *mut usize) -> u32;
    pub fn sefgrunn_page(
        text: *const u8,
        n: usize,
        height: usize,
        page: usize,
        start: *mut usize,
        length: *mut usize,
    ) -> u32;
    #[allow(dead_code)] // the package builds by a draft, the oracle both ways
    pub fn sefgrunn_write(
        room: *mut u8,
        room_len: usize,
        length: *mut usize,
        style: u32,
        text: *const u8,
        n: usize,
        place: *mut usize,
    ) -> u32;
    #[allow(dead_code)] // the package builds by a draft, the oracle both ways
    pub fn sefgrunn_open(
        room: *mut u8,
        room_len: usize,
        length: *mut usize,
        block: u32,
        place: *mut usize,
    ) -> u32;
    #[allow(dead_code)] // the package builds by a draft, the oracle both ways
    pub fn sefgrunn_close(
        room: *mut u8,
        room_len: usize,
        length: *mut usize,
        block: u32,
        place: *mut usize,
    ) -> u32;
    #[allow(dead_code)] // the package builds by a draft, the oracle both ways
    pub fn sefgrunn_doc(
        room: *mut u8,
        room_len: usize,
        length: *mut usize,
        added: *const u8,
        n: usize,
        place: *mut usize,
    ) -> u32;
    #[allow(dead_code)] // the package builds by a draft, the oracle both ways
    pub fn sefgrunn_em_doc(
        room: *mut u8,
        room_len: usize,
        length: *mut usize,
        added: *const u8,
        n: usize,
        place: *mut usize,
    ) -> u32;
    #[allow(dead_code)] // the package builds from nothing, the oracle from any document
    pub fn sefgrunn_draft_resume(
        room: *const u8,
        room_len: usize,
        length: usize,
        draft: *mut u64,
        place: *mut usize,
    ) -> u32;
    pub fn sefgrunn_draft_write(
        room: *mut u8,
        room_len: usize,
        draft: *mut u64,
        style: u32,
        text: *const u8,
        n: usize,
        place: *mut usize,
    ) -> u32;
    pub fn sefgrunn_draft_open(
        room: *mut u8,
        room_len: usize,
        draft: *mut u64,
        block: u32,
        place: *mut usize,
    ) -> u32;
    pub fn sefgrunn_draft_close(
        room: *mut u8,
        room_len: usize,
        draft: *mut u64,
        block: u32,
        place: *mut usize,
    ) -> u32;
    pub fn sefgrunn_draft_doc(
        room: *mut u8,
        room_len: usize,
        draft: *mut u64,
        added: *const u8,
        n: usize,
        place: *mut usize,
    ) -> u32;
    pub fn sefgrunn_draft_em_doc(
        room: *mut u8,
        room_len: usize,
        draft: *mut u64,
        added: *const u8,
        n: usize,
        place: *mut usize,
    ) -> u32;
}
