{
    let packets = recording::packets(File::open("shot.ogv")?)?;
    let mut player = Player::new(identification(&packets[0])?, setup(&packets[2])?)?;
    for frame in player.frames(&packets[3..]) {
        let frame = frame?;                          // or go on: the next packet can be decoded behind a refused one
        let [luma, _, _] = frame.picture();          // what should be shown, the top row first
        println!("{}: {:?}, {} by {}", frame.number(), frame.kind(), luma.width, luma.height);
    }
}
