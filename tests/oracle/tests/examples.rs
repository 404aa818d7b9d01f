//! What the oracle's fit writes for the examples is what stands beside them.

use std::path::Path;

#[test]
fn examples() {
    let folder = Path::new(env!("CARGO_MANIFEST_DIR")).join("../../examples");
    for name in ["modes_2d", "modes_4d"] {
        let input = std::fs::read(folder.join(name).with_extension("job")).unwrap();
        let expected = std::fs::read_to_string(folder.join(name).with_extension("out")).unwrap();
        assert_eq!(oracle::fit(&input), expected, "{name}");
    }
}
