%% A node of Erlang/OTP's diameter with base accounting, application 3.
%%   erl -noshell -pa DIR -run otp_peer main HOST LISTEN CONNECT KNOWN
%% LISTEN and CONNECT are ADDRESS:PORT, or none; KNOWN is the one host that it talks to, or any. On standard input
%% `call HOST` sends a request to a host, `stop` disconnects and ends. What happens is printed, a line each.
-module(otp_peer).
-export([main/1, greet/3]).
-export([peer_up/3, peer_down/3, pick_peer/4, prepare_request/3, prepare_retransmit/3]).
-export([handle_answer/4, handle_error/4, handle_request/3]).

main([Host, Listen, Connect, Known]) ->
    ok = diameter:start(),
    true = diameter:subscribe(node),
    ok = diameter:start_service(node, service(Host)),
    transport(listen, Listen, Known),
    transport(connect, Connect, Known),
    Self = self(),
    spawn_link(fun() -> read(Self) end),
    io:format("ready~n"),
    loop(Host).

service(Host) ->
    [{'Origin-Host', Host}, {'Origin-Realm', "example"}, {'Vendor-Id', 0}, {'Product-Name', "OTP"},
     {'Acct-Application-Id', [3]}, {'Origin-State-Id', diameter:origin_state_id()}, {string_decode, false},
     {decode_format, map},
     {application, [{alias, acct}, {dictionary, diameter_gen_acct_rfc6733}, {module, ?MODULE},
                    {answer_errors, callback}, {request_errors, callback}]}].

transport(_, "none", _) -> ok;
transport(Kind, Where, Known) ->
    [Text, Port] = string:split(Where, ":", trailing),
    {ok, Address} = inet:parse_address(Text),
    {ok, _} = diameter:add_transport(node, {Kind,
        [{transport_module, diameter_tcp}, {watchdog_timer, 6000}, {connect_timer, 2000},
         {capabilities_cb, {?MODULE, greet, [Known]}},
         {transport_config, [{reuseaddr, true} | ends(Kind, Address, list_to_integer(Port))]}]}).

ends(listen, Address, Port) -> [{ip, Address}, {port, Port}];
ends(connect, Address, Port) -> [{raddr, Address}, {rport, Port}].

greet(_, _, "any") -> ok;
greet(_, Capabilities, Known) ->
    {_, Host} = element(2, Capabilities),
    case iolist_to_binary(Host) =:= list_to_binary(Known) of true -> ok; false -> unknown end.

read(To) ->
    case io:get_line("") of
        Line when is_list(Line) -> To ! {line, string:lexemes(Line, " \n")}, read(To);
        _ -> ok
    end.

loop(Host) ->
    receive
        {line, ["call", To]} -> call(Host, To), loop(Host);
        {line, ["stop"]} -> diameter:stop_service(node), timer:sleep(500), halt();
        {diameter_event, node, Event} -> io:format("event ~0P~n", [Event, 30]), loop(Host)
    end.

call(Host, To) ->
    io:format("answer ~0p~n", [diameter:call(node, acct, ['ACR' | #{'Session-Id' => Host ++ ";1;2",
        'Origin-Host' => Host, 'Origin-Realm' => "example", 'Destination-Realm' => "example",
        'Destination-Host' => [To], 'Acct-Application-Id' => [3],
        'Accounting-Record-Type' => 1, 'Accounting-Record-Number' => 7}], [{timeout, 4000}])]).

peer_up(_, _, State) -> State.
peer_down(_, _, State) -> State.

pick_peer([Peer | _], _, _, _) -> {ok, Peer};
pick_peer([], _, _, _) -> false.

prepare_request(Packet, _, _) -> {send, Packet}.
prepare_retransmit(Packet, _, _) -> {send, Packet}.

%% the fourth of a packet's fields is its message, the sixth its errors
handle_answer(Packet, _, _, _) -> {element(4, Packet), element(6, Packet)}.
handle_error(Reason, _, _, _) -> {error, Reason}.

handle_request(Packet, _, {_, Capabilities}) ->
    ['ACR' | Fields] = element(4, Packet),
    io:format("asked~n"),
    {Host, _} = element(2, Capabilities),
    {reply, ['ACA' | (maps:with(['Session-Id', 'Accounting-Record-Type', 'Accounting-Record-Number'], Fields))#{
        'Result-Code' => 2001, 'Origin-Host' => Host, 'Origin-Realm' => "example"}]}.
