use super::{draw::Draw, fill, time, words::STOPS, Input};

pub const INPUT: Input = Input {
    name: "netex",
    description: "\
like NeTEx: elements with attributes, each on a line of its own, two spaces for each level. Below an XML declaration stand <PublicationDelivery>, \
<TimetableFrame> and <passingTimes>, and in it passing times, numbered from 10001 on:
      <TimetabledPassingTime id=\"SB:TimetabledPassingTime:10001\" version=\"1\">
        <StopPointInJourneyPatternRef ref=\"SB:StopPointInJourneyPattern:2\" version=\"1\"/>
        <Name>Rathaus</Name>
        <ArrivalTime>05:04:00</ArrivalTime>
        <DepartureTime>05:04:00</DepartureTime>
      </TimetabledPassingTime>
A number below 12 is drawn, which is the point's and the stop's in the list; then the minutes, as in the timetable. Lines end with a line feed, the \
last one too.",
    make,
};

const OPEN: &str = "\
<?xml version=\"1.0\" encoding=\"UTF-8\"?>
<PublicationDelivery xmlns=\"http://www.netex.org.uk/netex\" version=\"1.1\">
  <TimetableFrame id=\"SB:TimetableFrame:1\" version=\"1\">
    <passingTimes>
";

const CLOSE: &str = "    </passingTimes>
  </TimetableFrame>
</PublicationDelivery>
";

fn make(length: usize) -> Vec<u8> {
    let mut draw = Draw::new();
    let mut minutes = 5 * 60;
    fill(length, OPEN, CLOSE, |index| {
        let point = draw.below(STOPS.len());
        let arrival = minutes + draw.between(1, 9);
        minutes = arrival + draw.below(3);
        format!(
            "      <TimetabledPassingTime id=\"SB:TimetabledPassingTime:{}\" version=\"1\">
        <StopPointInJourneyPatternRef ref=\"SB:StopPointInJourneyPattern:{point}\" version=\"1\"/>
        <Name>{}</Name>
        <ArrivalTime>{}:00</ArrivalTime>
        <DepartureTime>{}:00</DepartureTime>
      </TimetabledPassingTime>
",
            10001 + index,
            STOPS[point],
            time(arrival),
            time(minutes),
        )
    })
}
