//! The functions of the C interface (include/stumpchoir.h): what each takes and gives back.

#[derive(Clone, Copy, PartialEq, Eq, Debug, Hash, PartialOrd, Ord)]
pub enum Layer {
    Medium,
    Objects,
    Blocks,
    Collector,
    Batch,
    Storage,
    Sweep,
}

pub const LAYERS: [Layer; 7] =
    [Layer::Medium, Layer::Objects, Layer::Blocks, Layer::Collector, Layer::Batch, Layer::Storage, Layer::Sweep];

impl Layer {
    pub fn name(self) -> &'static str {
        ["medium", "objects", "blocks", "collector", "batch", "storage", "sweep"][self as usize]
    }
}

/// What of the medium a function is lent.
#[derive(Clone, Copy, PartialEq, Eq, Debug)]
pub enum Place {
    Nothing,
    /// the image, to read
    Image,
    /// the image and a fuse, to store
    Store,
}

/// The array of numbers that a function is handed.
#[derive(Clone, Copy, PartialEq, Eq, Debug)]
pub enum Shape {
    None,
    Header,
    Writer,
    Reader,
    Metadata,
    Iterator,
    Record,
    /// any length: four numbers a block when it is right
    Table,
    /// any length: four numbers a record of a batch, at most 64 of them when it is right; only read
    Batch,
    /// any length: a number a byte of the image when it is right
    Words,
}

impl Shape {
    pub fn len(self) -> Option<usize> {
        match self {
            Shape::None => Some(0),
            Shape::Header => Some(5),
            Shape::Writer => Some(12),
            Shape::Reader => Some(6),
            Shape::Metadata => Some(9),
            Shape::Iterator => Some(2),
            Shape::Record => Some(4),
            Shape::Table | Shape::Batch | Shape::Words => None,
        }
    }
}

/// The bytes that a function is lent beside the image.
#[derive(Clone, Copy, PartialEq, Eq, Debug)]
pub enum Lent {
    None,
    /// only read
    Source,
    /// filled
    Buffer,
}

/// One out value: a byte, a u32 or a u64; or a u32 that is set in every case, refusals included.
#[derive(Clone, Copy, PartialEq, Eq, Debug)]
pub enum Out {
    B,
    W,
    Q,
    Always,
}

impl Out {
    /// What stands in an out value before the call.
    pub fn before(self) -> u64 {
        match self {
            Out::B => 0xA5,
            Out::W | Out::Always => 0xA5A5_A5A5,
            Out::Q => 0xA5A5_A5A5_A5A5_A5A5,
        }
    }
}

pub struct Signature {
    pub name: &'static str,
    pub layer: Layer,
    pub place: Place,
    /// single numbers, in the C function's order
    pub args: &'static [&'static str],
    pub array: Shape,
    pub lent: Lent,
    pub outs: &'static [Out],
}

impl Signature {
    /// Whether the out values are told in every case, refusals included.
    pub fn tells_always(&self) -> bool {
        self.outs.contains(&Out::Always)
    }
}

macro_rules! ops {
    ($($op:ident $name:literal $layer:ident $place:ident [$($arg:literal)*] $array:ident $lent:ident $outs:expr;)*) => {
        #[derive(Clone, Copy, PartialEq, Eq, Debug, Hash, PartialOrd, Ord)]
        pub enum Op { $($op),* }

        /// Every function, in the header's order.
        pub const ALL: &[Op] = &[$(Op::$op),*];

        const SIGNATURES: &[Signature] = &[$(Signature {
            name: $name, layer: Layer::$layer, place: Place::$place, args: &[$($arg),*],
            array: Shape::$array, lent: Lent::$lent, outs: $outs,
        }),*];
    };
}

use Out::{Always, B, Q, W};

ops! {
    Check "check" Medium Image [] None None &[];
    Align "align" Medium Nothing ["n"] None None &[Q];
    Read "read" Medium Image ["block" "offset"] None Buffer &[];
    Write "write" Medium Store ["block" "offset"] None Source &[];
    Erase "erase" Medium Store ["block"] None None &[];

    LocationIntoBytes "location_into_bytes" Objects Nothing ["block" "offset"] None None &[B, B, B, B, B, B, Q];
    LocationFromBytes "location_from_bytes" Objects Nothing [] None Source &[W; 2];
    HeaderRead "header_read" Objects Image ["block" "offset"] None None &[W; 5];
    UpdateState "update_state" Objects Store ["state"] Header None &[];
    SetPayloadSize "set_payload_size" Objects Store ["payload_size"] Header None &[];
    WriterAllocate "writer_allocate" Objects Store ["block" "offset" "type"] None None &[W; 12];
    WriterSpace "writer_space" Objects Nothing [] Writer None &[Q];
    WriterPayloadSize "writer_payload_size" Objects Nothing [] Writer None &[Q];
    WriterTotalSize "writer_total_size" Objects Nothing [] Writer None &[Q];
    WriterWrite "writer_write" Objects Store [] Writer Source &[];
    WriterFinalize "writer_finalize" Objects Store [] Writer None &[];
    WriterDelete "writer_delete" Objects Store [] Writer None &[];
    WriteTo "write_to" Objects Store ["block" "offset" "type"] None Source &[Q];
    ReaderNew "reader_new" Objects Image ["block" "offset" "allow"] None None &[W; 6];
    ReaderLen "reader_len" Objects Nothing [] Reader None &[Q];
    ReaderRemaining "reader_remaining" Objects Nothing [] Reader None &[Q];
    ReaderRewind "reader_rewind" Objects Nothing [] Reader None &[];
    ReaderRead "reader_read" Objects Image [] Reader Buffer &[Q];
    InfoRead "info_read" Objects Image ["block" "offset"] None None &[W; 6];
    InfoTotalSize "info_total_size" Objects Nothing [] Header None &[Q];
    InfoFinalize "info_finalize" Objects Store [] Header None &[];
    InfoDelete "info_delete" Objects Store [] Header None &[];
    CopyObject "copy_object" Objects Store ["block" "offset"] Header None &[W; 5];
    MoveObject "move_object" Objects Store ["block" "offset"] Header None &[W; 5];
    InfoReadMetadata "info_read_metadata" Objects Image [] Header None &[W; 9];
    LocationReadMetadata "location_read_metadata" Objects Image ["block" "offset"] None None &[W; 9];
    MetadataNext "metadata_next_object_location" Objects Image [] Metadata None &[W; 3];
    MetadataReset "metadata_reset" Objects Nothing [] Metadata None &[];
    IteratorNew "iterator_new" Objects Nothing ["block"] None None &[W; 2];
    IteratorNext "iterator_next" Objects Image [] Iterator None &[W; 6];

    WriteAll "write_all" Batch Store ["block"] Batch Source &[Always];

    BlockHeaderRead "block_header_read" Blocks Image ["block"] None None &[W; 2];
    BlockHeaderWrite "block_header_write" Blocks Store ["block" "kind" "erase_count"] None None &[];
    IsBlockDataEmpty "is_block_data_empty" Blocks Image ["block"] None None &[W];
    FormatBlock "format_block" Blocks Store ["block"] None None &[];
    FormatStorage "format_storage" Blocks Store [] None None &[];
    ScanBlock "scan_block" Blocks Image ["block"] None None &[W; 4];
    SetBlockType "set_block_type" Blocks Store ["block" "kind"] None None &[];
    CalculateFreeableSpace "calculate_freeable_space" Blocks Image ["block"] None None &[Q];
    RecordFreeSpace "record_free_space" Blocks Nothing [] Record None &[Q];
    RecordIsEmpty "record_is_empty" Blocks Nothing [] Record None &[W];
    RecordAddUsedBytes "record_add_used_bytes" Blocks Nothing ["total_size"] Record None &[];
    RecordUpdateStatsAfterErase "record_update_stats_after_erase" Blocks Nothing [] Record None &[];

    DeleteInvalidObjects "delete_invalid_objects" Collector Store [] Table None &[];
    EraseInvalidFinishedBlocks "erase_invalid_finished_blocks" Collector Store [] Table None &[];
    EraseFullFinishedBlocks "erase_full_finished_blocks" Collector Store [] Table None &[];
    Run "run" Collector Store [] Table None &[];

    Lookup "lookup" Storage Image ["hash"] None Source &[W; 2];
    FileSize "file_size" Storage Image ["block" "offset"] None None &[Q];
    FileRead "file_read" Storage Image ["block" "offset" "position" "position_high"] None Buffer &[Q];
    NamesNew "names_new" Storage Nothing [] None None &[W; 2];
    NamesNext "names_next" Storage Image [] Iterator Buffer &[W, W, W, Q];

    Sweep "sweep" Sweep Store [] None None &[Always, Always];
    SweepWith "sweep_with" Sweep Store [] Words None &[Always, Always];
}

impl Op {
    pub fn signature(self) -> &'static Signature {
        &SIGNATURES[self as usize]
    }

    pub fn name(self) -> &'static str {
        self.signature().name
    }

    pub fn named(name: &str) -> Option<Op> {
        ALL.iter().copied().find(|op| op.name() == name)
    }

    pub fn of_layer(layer: Layer) -> Vec<Op> {
        ALL.iter().copied().filter(|op| op.signature().layer == layer).collect()
    }

    /// Whether the function is lent a fuse.
    pub fn stores(self) -> bool {
        self.signature().place == Place::Store
    }

    /// Whether the function can meet 10 under the strict mark: all that store, but erases, formats and the passes that format,
    /// which store on erased bytes only, and the sweeps, which store nothing then.
    pub fn can_meet_programmed(self) -> bool {
        let never = matches!(
            self,
            Op::Erase
                | Op::FormatBlock
                | Op::FormatStorage
                | Op::EraseInvalidFinishedBlocks
                | Op::EraseFullFinishedBlocks
        );
        self.stores() && !never && self.signature().layer != Layer::Sweep
    }
}
