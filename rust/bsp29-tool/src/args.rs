//! The arguments.

use clap::{Args as ClapArgs, Parser, Subcommand, ValueEnum};
use std::path::PathBuf;
use std::str::FromStr;

/// May a BSP29 map from a stranger be played, and if not, why and where?
///
/// The answers come from a library whose code is proved: whatever the bytes of a map are, it answers
/// or refuses by a number. Status: 0, it is so (every map passes, the files are the same); 1, it is
/// not, or a file or a call was refused; 2, wrong arguments.
#[derive(Parser)]
#[command(name = "bsp29", version, subcommand_required = true, arg_required_else_help = true)]
pub struct Args {
    /// Print JSON in place of text
    #[arg(long, global = true)]
    pub json: bool,
    #[command(subcommand)]
    pub command: Command,
}

#[derive(Subcommand)]
pub enum Command {
    /// Say what a file holds: version, sections, counts, limits, verdict
    Info(OneFile),
    /// Say of each map whether it may be played: it loads and is accepted
    Check(Check),
    /// Say why a map is refused, with the bytes around the place
    Why(OneFile),
    /// List the entities
    Entities(Entities),
    /// List the records of a section, as they stand in the file
    Records(Records),
    /// Say what is at a point: contents in each hull, the leaf, what it sees
    At(At),
    /// Say what a point meets that moves along a line, by both traces
    Trace(Trace),
    /// Say of each root its nodes, its height and its deepest walk
    Tree(OneFile),
    /// Say of each leaf how much it sees, and which leaves are never seen
    Vis(Vis),
    /// List the textures and the animated ones' frames
    Textures(OneFile),
    /// Write a map made from a seed
    MadeUp(MadeUp),
    /// Compare two maps section by section
    Diff(Diff),
    /// Draw a slice of a hull, or the plan of the leaves, as SVG or PNG
    Picture(Picture),
    /// Answer the parent process about one map after the other
    #[command(hide = true)]
    Worker,
}

/// A command over one file.
#[derive(ClapArgs)]
pub struct OneFile {
    /// The map
    pub file: PathBuf,
}

#[derive(ClapArgs)]
pub struct Check {
    /// Maps, and directories that are searched for files ending in .bsp
    #[arg(required = true, value_name = "FILE")]
    pub files: Vec<PathBuf>,
    /// Draw a picture of each map that does not pass, and a page of them (index.html), in DIR
    #[arg(long, value_name = "DIR")]
    pub pictures: Option<PathBuf>,
    /// The most seconds for a map; one that takes longer does not pass
    #[arg(long, value_name = "N", default_value_t = 10, value_parser = clap::value_parser!(u64).range(1..=86_400))]
    pub seconds: u64,
    /// How many maps are looked at at once [default: as many as there are processors]
    #[arg(long, value_name = "N", value_parser = clap::value_parser!(u64).range(1..=256))]
    pub jobs: Option<u64>,
    /// Print no line for a map that passes
    #[arg(long, short)]
    pub quiet: bool,
}

#[derive(ClapArgs)]
pub struct Entities {
    /// The map
    pub file: PathBuf,
    /// Only entities of this class; a * stands for any characters
    #[arg(long, value_name = "NAME")]
    pub class: Option<String>,
}

#[derive(ClapArgs)]
pub struct Records {
    /// The map
    pub file: PathBuf,
    /// The section
    #[arg(value_enum)]
    pub section: SectionName,
    /// Only the record of this number, with what loading makes of it
    pub number: Option<usize>,
}

/// The sections that have records, by their numbers in the file.
#[derive(Copy, Clone, ValueEnum)]
pub enum SectionName {
    Planes = 1,
    Vertices = 3,
    RenderNodes = 5,
    TextureInfos = 6,
    Faces = 7,
    ClipNodes = 9,
    Leaves = 10,
    FaceList = 11,
    Edges = 12,
    EdgeList = 13,
    Models = 14,
}

#[derive(ClapArgs)]
pub struct At {
    /// The map
    pub file: PathBuf,
    /// The point
    #[arg(num_args = 3, required = true, allow_negative_numbers = true, value_names = ["X", "Y", "Z"])]
    pub point: Vec<f32>,
    /// The model
    #[arg(long, value_name = "N", default_value_t = 0)]
    pub model: usize,
}

#[derive(ClapArgs)]
pub struct Trace {
    /// The map
    pub file: PathBuf,
    /// The start, as X,Y,Z
    #[arg(allow_hyphen_values = true)]
    pub from: Point,
    /// The end, as X,Y,Z
    #[arg(allow_hyphen_values = true)]
    pub to: Point,
    #[command(flatten)]
    pub hull: HullArgs,
}

/// Which hull of which model.
#[derive(ClapArgs, Copy, Clone)]
pub struct HullArgs {
    /// The model
    #[arg(long, value_name = "N", default_value_t = 0)]
    pub model: usize,
    /// The hull: 0 for points, 1 for a player, 2 for larger ones
    #[arg(long, value_name = "N", default_value_t = 0, value_parser = clap::value_parser!(u8).range(0..=2))]
    pub hull: u8,
}

#[derive(ClapArgs)]
pub struct Vis {
    /// The map
    pub file: PathBuf,
    /// Only this leaf, with the leaves that it sees
    #[arg(long, value_name = "N")]
    pub leaf: Option<usize>,
}

#[derive(ClapArgs)]
pub struct MadeUp {
    /// The seed
    pub seed: u32,
    /// How many nodes, 1 to 500
    pub nodes: usize,
    /// Where to write the map
    #[arg(long, short, value_name = "FILE")]
    pub output: PathBuf,
}

#[derive(ClapArgs)]
pub struct Diff {
    /// A map
    pub a: PathBuf,
    /// Another one
    pub b: PathBuf,
}

#[derive(ClapArgs)]
pub struct Picture {
    /// The map
    pub file: PathBuf,
    /// Where to write the picture: a name that ends in .svg or .png
    #[arg(long, short, value_name = "FILE")]
    pub output: PathBuf,
    #[command(flatten)]
    pub hull: HullArgs,
    /// The height of the slice [default: where players start, else the middle]
    #[arg(long, value_name = "Z", allow_negative_numbers = true)]
    pub height: Option<f32>,
    /// Draw the plan of the leaves in place of the contents
    #[arg(long)]
    pub leaves: bool,
    /// Draw the plan of the leaves with what is seen from this one
    #[arg(long, value_name = "LEAF")]
    pub see: Option<usize>,
    /// Draw a line, the planes that it crosses and where it ends
    #[arg(long, num_args = 2, value_names = ["FROM", "TO"], allow_hyphen_values = true)]
    pub trace: Option<Vec<Point>>,
    /// The longer side of the drawing in pixels
    #[arg(long, value_name = "N", default_value_t = 640, value_parser = clap::value_parser!(u32).range(64..=4_096))]
    pub size: u32,
}

/// A point of the map, written as X,Y,Z.
#[derive(Copy, Clone, Debug, PartialEq)]
pub struct Point(pub [f32; 3]);

impl FromStr for Point {
    type Err = String;

    fn from_str(text: &str) -> Result<Point, String> {
        let numbers: Result<Vec<f32>, _> =
            text.split(',').map(|number| number.trim().parse()).collect();
        match numbers.as_deref() {
            Ok(&[x, y, z]) => Ok(Point([x, y, z])),
            _ => Err("a point is three numbers, as in -64,0,24.5".to_string()),
        }
    }
}

#[cfg(test)]
mod tests {
    use super::*;
    use clap::CommandFactory;

    #[test]
    fn the_arguments_are_sound() {
        Args::command().debug_assert();
    }

    #[test]
    fn the_manual_page_has_every_command_and_flag() {
        let page = include_str!("../bsp29.1").replace("\\-", "-");
        let shown = Args::command();
        for command in shown.get_subcommands().filter(|command| !command.is_hide_set()) {
            assert!(
                page.contains(&format!(".BI {} ", command.get_name())),
                "{}",
                command.get_name()
            );
            for flag in command.get_arguments().filter_map(clap::Arg::get_long) {
                assert!(page.contains(&format!("--{flag}")), "{flag}");
            }
        }
    }

    #[test]
    fn points_are_three_numbers() {
        assert_eq!("-64,0, 24.5".parse(), Ok(Point([-64.0, 0.0, 24.5])));
        for wrong in ["", "1,2", "1,2,3,4", "1,2,x", "1 2 3"] {
            assert!(wrong.parse::<Point>().is_err());
        }
    }

    #[test]
    fn a_flag_may_follow_a_negative_point() {
        for line in [
            "bsp29 trace a.bsp -1,0,0 -2,0,0 --json --hull 1",
            "bsp29 --json trace --hull 1 a.bsp -1,0,0 -2,0,0",
            "bsp29 at a.bsp -1 -2 -3 --json",
            "bsp29 picture a.bsp --trace -1,0,0 -2,0,0 -o a.svg --height -4 --json",
        ] {
            let args = Args::try_parse_from(line.split(' ')).map_err(|error| error.to_string());
            assert!(args.unwrap().json);
        }
    }
}
