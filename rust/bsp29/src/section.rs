//! The sections of a file.

use std::fmt;

/// Makes the enum, its names and its list from one table.
macro_rules! sections {
    ($($(#[$doc:meta])* $section:ident, $name:literal;)*) => {
        /// A section of a file, in the order of its directory.
        ///
        /// ```
        /// use bsp29::Section;
        ///
        /// assert_eq!(Section::Leaves.number(), 10);
        /// assert_eq!(Section::from_number(10), Some(Section::Leaves));
        /// assert_eq!(Section::Leaves.to_string(), "leaves");
        /// ```
        #[derive(Copy, Clone, Debug, PartialEq, Eq, Hash, PartialOrd, Ord)]
        pub enum Section {
            $($(#[$doc])* $section,)*
        }

        impl Section {
            /// All of them, in order.
            pub const ALL: [Section; 15] = [$(Section::$section,)*];

            /// Its name, in words.
            pub fn name(self) -> &'static str {
                match self {
                    $(Section::$section => $name,)*
                }
            }
        }
    };
}

sections! {
    /// The entity text.
    Entities, "entities";
    /// The planes.
    Planes, "planes";
    /// The textures.
    Textures, "textures";
    /// The vertices.
    Vertices, "vertices";
    /// The visibility rows of the leaves.
    Visibility, "visibility";
    /// The render nodes.
    RenderNodes, "render nodes";
    /// The texture infos.
    TextureInfos, "texture infos";
    /// The faces.
    Faces, "faces";
    /// The light of the faces.
    Lightmaps, "lightmaps";
    /// The clip nodes.
    ClipNodes, "clip nodes";
    /// The leaves.
    Leaves, "leaves";
    /// The faces of the leaves.
    FaceList, "face list";
    /// The edges.
    Edges, "edges";
    /// The edges of the faces.
    EdgeList, "edge list";
    /// The models.
    Models, "models";
}

impl Section {
    /// Its number, from 0 to 14.
    pub fn number(self) -> u32 {
        self as u32
    }

    /// The section of a number.
    pub fn from_number(number: u32) -> Option<Section> {
        Section::ALL.get(number as usize).copied()
    }
}

impl fmt::Display for Section {
    fn fmt(&self, f: &mut fmt::Formatter<'_>) -> fmt::Result {
        f.pad(self.name())
    }
}
