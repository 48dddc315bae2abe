//! Values, put together step by step.
use crate::typed::Range;
use crate::values::*;
use alloc::vec::Vec;

impl Table {
    /// A table from its first key on, without a last key; its numbers are 0.
    ///
    /// ```
    /// use bilqarush::typed::{Table, TableId};
    /// let table = Table::new(TableId(1), "lamp/1").with_last_key("lamp/8").with_index(4096, 256);
    /// assert_eq!(table.last_key.as_deref(), Some(&b"lamp/8"[..]));
    /// ```
    #[must_use]
    pub fn new(id: TableId, first_key: impl AsRef<[u8]>) -> Table {
        Table {
            id,
            first_key: first_key.as_ref().to_vec(),
            ..Table::default()
        }
    }

    /// The same table with a last key.
    #[must_use]
    pub fn with_last_key(mut self, key: impl AsRef<[u8]>) -> Table {
        self.last_key = Some(key.as_ref().to_vec());
        self
    }

    /// The same table with its index at an offset, of a length.
    #[must_use]
    pub fn with_index(mut self, offset: u64, len: u64) -> Table {
        (self.index_offset, self.index_len) = (offset, len);
        self
    }

    /// The same table with its filter at an offset.
    #[must_use]
    pub fn with_filter(mut self, offset: u64) -> Table {
        self.filter_offset = offset;
        self
    }
}

impl View {
    /// A view that shows all of its table.
    #[must_use]
    pub fn new(id: ViewId, table: Table) -> View {
        View {
            id,
            table,
            visible: None,
        }
    }

    /// The same view with a visible range.
    #[must_use]
    pub fn with_visible(mut self, range: Range) -> View {
        self.visible = Some(range);
        self
    }
}

impl Run {
    /// A run of views.
    #[must_use]
    pub fn new(id: u32, views: impl IntoIterator<Item = View>) -> Run {
        Run {
            id,
            views: views.into_iter().collect(),
        }
    }
}

impl Image {
    /// An image of runs.
    ///
    /// ```
    /// use bilqarush::typed::{check_image, Image, ImageBytes, Run, Table, TableId, View, ViewId};
    /// let one = Table::new(TableId(1), "a").with_last_key("c");
    /// let two = Table::new(TableId(2), "d");
    /// let image = Image::new([Run::new(7, [View::new(ViewId(1), one), View::new(ViewId(2), two)])]);
    /// let bytes = image.to_bytes()?;
    /// check_image(ImageBytes(&bytes))?;
    /// assert_eq!(Image::from_bytes(&bytes), Ok(image));
    /// # Ok::<(), bilqarush::Stop>(())
    /// ```
    #[must_use]
    pub fn new(runs: impl IntoIterator<Item = Run>) -> Image {
        Image {
            runs: runs.into_iter().collect(),
        }
    }
}

impl Part {
    /// An unfinished part that has written nothing yet.
    #[must_use]
    pub fn new(range: Range) -> Part {
        Part {
            range,
            completed: false,
            outputs: Vec::new(),
        }
    }

    /// The same part with one output more.
    #[must_use]
    pub fn with_output(mut self, table: Table) -> Part {
        self.outputs.push(table);
        self
    }

    /// The same part, completed.
    #[must_use]
    pub fn complete(mut self) -> Part {
        self.completed = true;
        self
    }
}

impl Job {
    /// A job without parts, from source runs into one of them.
    #[must_use]
    pub fn new(destination: u32, sources: impl IntoIterator<Item = u32>) -> Job {
        Job {
            destination,
            sources: sources.into_iter().collect(),
            parts: Vec::new(),
        }
    }

    /// The same job with one part more.
    #[must_use]
    pub fn with_part(mut self, part: Part) -> Job {
        self.parts.push(part);
        self
    }
}

impl Index {
    /// An index of blocks, each an offset and a first key.
    #[must_use]
    pub fn new<K: AsRef<[u8]>>(blocks: impl IntoIterator<Item = (u64, K)>) -> Index {
        let blocks = blocks.into_iter().map(|(offset, key)| Block {
            offset,
            first_key: key.as_ref().to_vec(),
        });
        Index {
            blocks: blocks.collect(),
        }
    }
}

impl Anchors {
    /// Anchors, each a key and the bytes that it stands for.
    #[must_use]
    pub fn new<K: AsRef<[u8]>>(anchors: impl IntoIterator<Item = (K, u64)>) -> Anchors {
        let anchors = anchors.into_iter().map(|(key, bytes)| Anchor {
            key: key.as_ref().to_vec(),
            bytes,
        });
        Anchors {
            anchors: anchors.collect(),
        }
    }
}
